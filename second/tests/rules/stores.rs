//! set, safe_set, add, safe_add, replace and delete.

use crate::yard::*;
use second::Answer;

#[test]
fn add_and_replace_refuse_by_what_is_live() {
    let yard = Yard::with(4, &[number("live", 0, 1), number("dead", 1, 2).expiry(9), number("last", 2, 3)]);
    for add in [Yard::add, Yard::safe_add] {
        let mut after = yard.clone();
        assert_eq!(add(&mut after, 10, "live", weight(5)), refused(9, 0));
        assert_eq!(after, yard);
        assert_eq!(add(&mut after, 10, "dead", weight(5)), DONE);
        assert_eq!(add(&mut after, 10, "new", weight(5)), DONE);
        assert_eq!(after.order(), "new dead live last");
    }
    let mut after = yard.clone();
    assert_eq!(after.replace(10, "dead", weight(5)), refused(8, 0));
    assert_eq!(after.replace(10, "new", weight(5)), refused(8, 0));
    assert_eq!(after, yard);
    assert_eq!(after.replace(10, "live", weight(5)), DONE);
    assert_eq!(after.order(), "live dead last");
    assert_eq!(after.value(0), 5i64.to_le_bytes());
}

#[test]
fn overwrite_in_place_across_kinds() {
    // A text of 8 bytes and a number, a text of one byte and a boolean (decision 29 of docs/DECISIONS.md).
    let yard = Yard::with(4, &[text("front", 0, ""), text("t", 2, "8 bytes!").flags(7).expiry(99), text("u", 3, "x")]);
    let mut after = yard.clone();
    assert_eq!(after.set(10, "t", weight(-1)), DONE);
    assert_eq!(after.order(), "t front u");
    assert_eq!(after.record(0), [0, 3, 0, 2, 1, 8]);
    assert_eq!(after.value(0), [255; 8]);
    assert_eq!(after.set(10, "u", yes_no(-5).flags(1).lifetime(2)), DONE);
    assert_eq!(after.record(0), [12, 1, 1, 3, 1, 1]);
    assert_eq!(after.value(0), [1]);
    assert_eq!(after.set(10, "t", words(b"88888888").flags(u32::MAX)), DONE);
    assert_eq!(after.record(0), [0, 4, u64::from(u32::MAX), 2, 1, 8]);
    assert_eq!(after.value(0), b"88888888");
    assert_eq!(after.order(), "t u front");
    assert!(after.audit());
}

#[test]
fn overwrite_of_a_dead_entry_in_place() {
    for form in [Yard::set, Yard::safe_set, Yard::add, Yard::safe_add] {
        let mut yard = Yard::with(4, &[number("a", 2, 1).expiry(9).flags(3), number("b", 0, 2)]);
        assert_eq!(form(&mut yard, 10, "a", weight(7)), DONE);
        assert_eq!(yard.record(0), [0, 3, 0, 2, 1, 8]);
        assert_eq!(yard.get(10, "a").number, 7);
    }
}

#[test]
fn the_own_entry_of_another_length_makes_room() {
    // Decision 30 of docs/DECISIONS.md: a at cells 1 and 2 is out before the search, so that three cells from 1 on are
    // free.
    for form in [Yard::set, Yard::safe_set, Yard::replace] {
        let mut yard = Yard::with(4, &[text("a", 1, &"x".repeat(40)), text("b", 0, "")]);
        assert_eq!(form(&mut yard, 10, "a", words(&[b'y'; 90])), DONE);
        assert_eq!(yard.record(0), [0, 4, 0, 1, 1, 90]);
        assert_eq!(yard.order(), "a b");
    }
    // An equal need is no equal length: the entry moves to the lowest start.
    let mut yard = Yard::with(4, &[text("a", 2, "12")]);
    assert_eq!(yard.set(10, "a", words(b"1")), DONE);
    assert_eq!(yard.record(0)[3], 0);
}

#[test]
fn a_failed_store_keeps_no_old_tare() {
    let five_cells = words(&[0; 128]);
    let mut dead = Yard::full();
    dead.dir[14] = 9; // b
    let live = Yard::full();
    let [set, safe_set, add, safe_add, replace] = FORMS;
    for (yard, (form, _)) in [(&live, set), (&live, safe_set), (&dead, add), (&dead, safe_add), (&live, replace)] {
        let mut after = yard.clone();
        assert_eq!(after.store(form, 10, b"b", five_cells), refused(12, 0));
        assert_eq!(after.order(), "d c a");
        assert_eq!(after.pool, yard.pool_without([1]));
    }
    // An incr that must place its initial number anew: the key needs two cells with a number, one with a boolean.
    let key = "k".repeat(31);
    let mut yard = Yard::with(1, &[boolean(&key, 0, 1).expiry(9)]);
    assert_eq!(yard.incr(8, &key, 1, Some((1, 0))), refused(10, 0));
    assert_eq!(yard.incr(10, &key, 1, Some((1, 0))), refused(12, 1));
    assert_eq!(yard.count(), 0);
}

#[test]
fn a_boolean_is_1_for_any_number_but_0() {
    for (given, stored) in [(0, 0), (1, 1), (-1, 1), (2, 1), (i64::MIN, 1), (i64::MAX, 1), (256, 1)] {
        let mut yard = Yard::fresh(4);
        // Decision 33 of docs/DECISIONS.md: the text isn't read.
        assert_eq!(yard.set(10, "b", Value { text: b"text", ..yes_no(given) }), DONE);
        assert_eq!(yard.record(0), [0, 1, 0, 0, 1, 1]);
        assert_eq!(yard.get(10, "b"), Answer { kind: 1, number: stored, offset: 1, length: 1, ..DONE });
    }
}

#[test]
fn arguments_that_a_kind_does_not_read() {
    let mut yard = Yard::fresh(4);
    assert_eq!(yard.set(10, "n", Value { text: b"text", ..weight(5) }), DONE);
    assert_eq!(yard.value(0), 5i64.to_le_bytes());
    assert_eq!(yard.set(10, "t", Value { number: 5, ..words(b"text") }), DONE);
    assert_eq!(yard.get(10, "t"), Answer { kind: 4, offset: 33, length: 4, ..DONE });
}

#[test]
fn nil_deletes() {
    for form in [Yard::set, Yard::safe_set] {
        let mut yard = Yard::full();
        yard.dir[8] = 9; // c is dead
        assert_eq!(form(&mut yard, 10, "c", NIL.flags(5).lifetime(5)), DONE);
        assert_eq!(form(&mut yard, 10, "a", Value { number: 1, text: b"text", ..NIL }), DONE);
        assert_eq!(form(&mut yard, 10, "none", NIL), DONE);
        assert_eq!(yard.order(), "d b");
        assert_eq!(yard.pool, Yard::full().pool_without([0, 2]));
        assert!(yard.dir[14..].iter().all(|&word| word == 0));
    }
}

#[test]
fn delete_closes_the_gap() {
    let mut yard = Yard::full();
    assert_eq!(yard.delete(10, "c"), DONE);
    assert_eq!(yard, {
        let mut expected = Yard::with(4, &[number("d", 3, 4), number("b", 1, 2), number("a", 0, 1)]);
        expected.pool = Yard::full().pool_without([2]);
        expected
    });
    assert_eq!(yard.delete(10, "c"), DONE);
    for key in ["d", "a", "b"] {
        assert_eq!(yard.delete(10, key), DONE);
    }
    assert_eq!(yard, Yard::fresh(4));
}

#[test]
fn placing_writes_key_and_value_only() {
    let mut yard = Yard::fresh(4);
    assert_eq!(yard.set(10, "key", words(b"text")), DONE);
    assert_eq!(&yard.pool[..7], b"keytext");
    assert_eq!(yard.pool[7..], Yard::fresh(4).pool[7..]);
}

#[test]
fn the_lowest_start_is_taken() {
    // Free: cell 0, cells 2 and 3, cells 5 to 7.
    let yard = Yard::with(8, &[text("a", 1, ""), text("b", 4, "")]);
    for (bytes, start) in [(0, 0), (31, 0), (32, 2), (63, 2), (64, 5), (95, 5)] {
        for (form, _) in &FORMS[..4] {
            let mut after = yard.clone();
            assert_eq!(after.store(*form, 10, b"n", words(&vec![b'x'; bytes])), DONE);
            assert_eq!(after.record(0)[3], start);
            assert_eq!(after.order(), "n a b");
        }
    }
    let mut after = yard.clone();
    assert_eq!(after.safe_add(10, "n", words(&[0; 96])), refused(12, 0));
    assert_eq!(after, yard);
}

fn one_cell_each(cells: usize, expiry: u64) -> Yard {
    let keys: Vec<String> = (0..cells).map(|at| format!("{at:04}")).collect();
    let entries: Vec<Hand> = (0..cells).rev().map(|at| number(&keys[at], at, 1).expiry(expiry)).collect();
    Yard::with(cells, &entries)
}

#[test]
fn thirty_rounds_and_not_one_more() {
    let mut yard = one_cell_each(64, 0);
    assert_eq!(yard.set(10, "n", words(&[0; 30 * 32 - 1])), stored(30, 30));
    assert_eq!((yard.count(), yard.record(0)[3]), (35, 0));
    let mut yard = one_cell_each(64, 0);
    assert_eq!(yard.set(10, "n", words(&[0; 30 * 32])), refused(12, 0));
    assert_eq!(yard, one_cell_each(64, 0));
    let mut yard = one_cell_each(30, 0);
    assert_eq!(yard.set(10, "n", words(&[0; 30 * 32])), refused(12, 0));
    assert_eq!(yard, one_cell_each(30, 0));
}

#[test]
fn never_over_92_removed() {
    let mut yard = one_cell_each(128, 9);
    assert_eq!(yard.set(10, "n", words(&[0; 128 * 32])), refused(12, 2));
    assert_eq!(yard.count(), 126);
    // Ninety-two cells are just enough for the last of the rounds.
    let mut yard = one_cell_each(128, 9);
    assert_eq!(yard.set(10, "n", words(&[0; 92 * 32 - 1])), Answer { forced: false, ..stored(30, 92) });
    assert_eq!(yard.count(), 37);
}

#[test]
fn a_round_ends_at_a_live_entry() {
    // From the long-unused end: live 0, dead 1, live 2, dead 3 4 5, live 6, 7.
    let dead = [1, 3, 4, 5];
    let entries: Vec<Hand> =
        (0..8).rev().map(|at| number(&at.to_string(), at, 1).expiry(if dead.contains(&at) { 9 } else { 0 })).collect();
    let rounds_for = |need: usize| {
        let mut yard = Yard::with(8, &entries);
        let answer = yard.set(10, "n", words(&vec![0; 32 * need - 1]));
        assert_eq!(yard.record(0)[3], 0);
        (answer, yard.count())
    };
    // Rounds: 0 1; 2 3 4; 5; 6; 7.
    assert_eq!(rounds_for(1), (stored(1, 2), 7));
    assert_eq!(rounds_for(2), (stored(1, 2), 7));
    assert_eq!(rounds_for(3), (stored(2, 5), 4));
    assert_eq!(rounds_for(5), (stored(2, 5), 4));
    assert_eq!(rounds_for(6), (stored(3, 6), 3));
    assert_eq!(rounds_for(7), (stored(4, 7), 2));
    assert_eq!(rounds_for(8), (stored(5, 8), 1));
}

#[test]
fn safe_forms_take_free_room() {
    let mut yard = Yard::fresh(2);
    assert_eq!(yard.safe_set(10, "a", weight(1)), DONE);
    assert_eq!(yard.safe_add(10, "b", weight(1)), DONE);
    assert_eq!(yard.safe_add(10, "c", weight(1)), refused(12, 0));
    assert_eq!(yard.safe_set(10, "a", weight(2)), DONE);
    assert_eq!(yard.order(), "a b");
}

#[test]
fn a_pool_of_one_cell() {
    let mut yard = Yard::fresh(1);
    assert_eq!(yard.set(10, "a", words(&[1; 31])), DONE);
    assert_eq!(yard.set(10, "b", words(&[2; 31])), stored(1, 1));
    assert_eq!(yard.set(10, "c", words(&[3; 32])), refused(12, 0));
    assert_eq!(yard.order(), "b");
    assert_eq!(yard.set(10, "b", words(&[3; 32])), refused(12, 0));
    assert_eq!(yard.dir, Yard::fresh(1).dir);
}
