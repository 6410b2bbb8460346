//! Equal keys in hand-made memories: "the most recently used one is meant", and "others with that key stay in the
//! line" (decision 31 of docs/DECISIONS.md).

use crate::yard::*;
use second::Answer;

/// k thrice: 10 at the front, 20 behind x, 30 last.
fn three() -> Yard {
    Yard::with(6, &[number("k", 2, 10), number("x", 1, 0), number("k", 4, 20), number("k", 0, 30)])
}

#[test]
fn look_up_means_the_most_recent() {
    let mut yard = three();
    assert_eq!(yard.get(10, "k"), Answer { kind: 3, number: 10, offset: 65, length: 8, ..DONE });
    assert_eq!(yard, three());
    assert_eq!(yard.get(10, "x").outcome, 0);
    assert_eq!(yard.get(10, "k").number, 10);
    assert_eq!(yard.order(), "k x k k");
    assert!(!yard.audit());
}

#[test]
fn a_dead_one_hides_live_ones() {
    let mut yard = three();
    yard.dir[2] = 9; // the front one is dead
    assert_eq!(yard.get(10, "k"), refused(8, 0));
    assert_eq!(yard.ttl(10, "k"), refused(8, 0));
    assert_eq!(yard.expire(10, "k", 5), refused(8, 0));
    assert_eq!(yard.incr(10, "k", 1, None), refused(8, 0));
    assert_eq!(yard.replace(10, "k", weight(1)), refused(8, 0));
    let stale = yard.get_stale(10, "k");
    assert_eq!((stale.number, stale.stale), (10, true));
    assert_eq!(yard.add(10, "k", weight(11)), DONE);
    assert_eq!(yard.value(0), 11i64.to_le_bytes());
    assert_eq!(yard.count(), 4);
}

#[test]
fn delete_uncovers_an_older_one() {
    let mut yard = three();
    for weight in [10, 20, 30] {
        assert_eq!(yard.get(10, "k").number, weight);
        assert_eq!(yard.delete(10, "k"), DONE);
    }
    assert_eq!(yard.get(10, "k"), refused(8, 0));
    assert_eq!(yard.order(), "x");
}

#[test]
fn overwrite_changes_only_the_one_meant() {
    let mut yard = three();
    assert_eq!(yard.set(10, "k", weight(11)), DONE);
    assert_eq!(yard.incr(10, "k", 1, None), Answer { kind: 3, number: 12, ..DONE });
    assert_eq!(yard.record(0)[3], 2);
    assert_eq!(yard.value(2), 20i64.to_le_bytes());
    assert_eq!(yard.value(3), 30i64.to_le_bytes());
}

#[test]
fn another_length_takes_out_only_the_one_meant() {
    let mut yard = three();
    assert_eq!(yard.set(10, "k", words(b"text")), DONE);
    assert_eq!(yard.order(), "k x k k");
    assert_eq!(yard.record(0), [0, 4, 0, 2, 1, 4]);
}

#[test]
fn the_others_stay_in_the_line_and_count() {
    // Cells 1, 3, 5 are free of k: the two older k and x must go for six cells.
    let mut yard = three();
    assert_eq!(yard.set(10, "k", words(&[0; 6 * 32 - 1])), stored(3, 3));
    assert_eq!(yard.order(), "k");
    // Dead ones at the end are swept and counted, the own one isn't.
    let mut yard = three();
    yard.dir[14] = 9;
    yard.dir[20] = 9;
    assert_eq!(yard.delete(10, "k"), stored(0, 2));
    assert_eq!(yard.order(), "x");
}

#[test]
fn a_swept_one_is_not_meant_any_more() {
    // Only the last two are dead and one of them is the most recent k.
    let mut yard = Yard::with(4, &[number("x", 0, 0), number("k", 1, 1).expiry(9), number("k", 2, 2).expiry(9)]);
    assert_eq!(yard.add(10, "k", weight(5)), stored(0, 2));
    assert_eq!(yard.record(0)[3], 1);
    assert_eq!(yard.order(), "k x");
}

#[test]
fn listing_gives_a_row_for_each() {
    let mut rows = [0; 12];
    assert_eq!(three().get_keys(10, 0, &mut rows), Answer { count: 4, ..DONE });
    assert_eq!(rows, [2, 1, 3, 1, 1, 3, 4, 1, 3, 0, 1, 3]);
}
