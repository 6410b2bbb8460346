//! "Plates on both sides": P1 to P12 of 01 and the plates marked "Run".

use crate::yard::*;
use second::{need, Answer};

/// Two cells: 1 byte of key and 32 of text.
const TWO_CELLS: Value = words(&[b'x'; 32]);
/// Three cells: 1 byte of key and 64 of text.
const THREE_CELLS: Value = words(&[b'x'; 64]);
/// Five cells: 1 byte of key and 128 of text.
const FIVE_CELLS: Value = words(&[b'x'; 128]);

fn ab12() -> Yard {
    let mut yard = Yard::fresh(4);
    assert_eq!(yard.set(1000, "AB12", weight(14200).lifetime(500)), DONE);
    yard
}

#[test]
fn p1_need() {
    assert_eq!([1, 32, 33, 64, 65].map(need), [1, 1, 2, 2, 3]);
}

#[test]
fn p2_record_of_a_set() {
    let yard = ab12();
    assert_eq!(yard.count(), 1);
    assert_eq!(yard.record(0), [1500, 3, 0, 0, 4, 8]);
    assert_eq!(&yard.pool[..12], b"AB12\x78\x37\0\0\0\0\0\0");
    assert!(yard.pool[12..].iter().all(|&byte| byte == 0));
    assert!(yard.dir[8..].iter().all(|&word| word == 0));
}

#[test]
fn p3_live_before_its_expiry() {
    let mut yard = ab12();
    let read = Answer { kind: 3, number: 14200, offset: 4, length: 8, ..DONE };
    assert_eq!(yard.get(1499, "AB12"), read);
    assert_eq!(yard.ttl(1499, "AB12"), Answer { count: 1, ..DONE });
}

#[test]
fn p4_dead_at_its_expiry() {
    let mut yard = ab12();
    assert_eq!(yard.get(1500, "AB12"), refused(8, 1));
    assert_eq!(yard.dir, Yard::fresh(4).dir);
}

#[test]
fn p5_one_round_for_one_cell() {
    let mut yard = Yard::full();
    assert_eq!(yard.set(1000, "e", weight(5)), stored(1, 1));
    assert_eq!(yard.record(0), [0, 3, 0, 0, 1, 8]);
    assert_eq!(yard.order(), "e d c b");
}

#[test]
fn p6_two_rounds_for_two_cells() {
    let mut yard = Yard::full();
    assert_eq!(yard.set(1000, "e", TWO_CELLS), stored(2, 2));
    assert_eq!(yard.record(0), [0, 4, 0, 0, 1, 32]);
    assert_eq!(yard.order(), "e d c");
}

#[test]
fn p7_adjacent_cells_not_their_sum() {
    let mut yard = Yard::with(4, &[number("d", 3, 4), number("b", 1, 2), number("c", 2, 3), number("a", 0, 1)]);
    assert_eq!(yard.set(1000, "e", TWO_CELLS), stored(3, 3));
    assert_eq!(yard.record(0)[3], 0);
    assert_eq!(yard.order(), "e d");
}

#[test]
fn p8_the_sweep_stops_at_a_live_entry() {
    let dead = |hand: Hand| hand.expiry(500);
    let mut yard =
        Yard::with(4, &[dead(number("d", 3, 4)), dead(number("c", 2, 3)), dead(number("b", 1, 2)), number("a", 0, 1)]);
    assert_eq!(yard.set(1000, "e", weight(5)), stored(1, 3));
    assert_eq!(yard.order(), "e d");
    assert_eq!(yard.record(0)[3], 0);
}

#[test]
fn p9_no_memory_after_any_rounds() {
    let mut yard = Yard::full();
    assert_eq!(yard.set(1000, "e", FIVE_CELLS), refused(12, 0));
    assert_eq!(yard, Yard::full());
}

/// The example of request 3: the rounds take dead entries alone.
#[test]
fn not_forced_where_only_dead_ones_go() {
    let dead = |hand: Hand| hand.expiry(500);
    let mut yard =
        Yard::with(4, &[number("d", 3, 4), dead(number("c", 2, 3)), dead(number("b", 1, 2)), dead(number("a", 0, 1))]);
    assert_eq!(yard.set(1000, "e", THREE_CELLS), Answer { forced: false, ..stored(1, 3) });
    assert_eq!(yard.record(0)[3], 0);
    assert_eq!(yard.order(), "e d");
}

#[test]
fn p10_a_safe_form_evicts_nothing() {
    let mut yard = Yard::full();
    assert_eq!(yard.safe_set(1000, "e", weight(5)), refused(12, 0));
    assert_eq!(yard, Yard::full());
}

#[test]
fn p11_a_failed_store_leaves_no_old_tare() {
    let mut yard = Yard::full();
    assert_eq!(yard.safe_set(1000, "a", TWO_CELLS), refused(12, 0));
    assert_eq!(yard.order(), "d c b");
    assert_eq!(yard.pool, Yard::full().pool_without([0]));
}

#[test]
fn p12_equal_length_is_in_place() {
    let mut yard = Yard::full();
    assert_eq!(yard.set(1000, "b", weight(7).lifetime(50).flags(9)), DONE);
    assert_eq!(yard.order(), "b d c a");
    assert_eq!(yard.record(0), [1050, 3, 9, 1, 1, 8]);
    assert_eq!(yard.value(0), 7i64.to_le_bytes());
}

#[test]
fn run_longest_key() {
    let mut yard = Yard::full();
    assert_eq!(yard.set(1000, &"k".repeat(65_535), weight(1)), refused(12, 0));
    assert_eq!(yard, Yard::full());
    assert_eq!(yard.set(1000, &"k".repeat(65_536), weight(1)), refused(4, 0));
    assert_eq!(yard, Yard::full());
}

#[test]
fn run_sum_out_of_range() {
    let mut yard = Yard::with(4, &[number("a", 0, i64::MAX)]);
    let before = yard.clone();
    assert_eq!(yard.incr(1000, "a", 1, None), refused(11, 0));
    assert_eq!(yard, before);
}

#[test]
fn run_incr_of_a_missing_key() {
    let mut yard = Yard::fresh(4);
    assert_eq!(yard.incr(1000, "a", 2, Some((5, 0))), Answer { kind: 3, number: 7, ..DONE });
    assert_eq!(yard.record(0), [0, 3, 0, 0, 1, 8]);
    assert_eq!(yard.value(0), 7i64.to_le_bytes());
}
