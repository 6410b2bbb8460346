//! incr.

use crate::yard::*;
use second::Answer;

fn sum(number: i64) -> Answer {
    Answer { kind: 3, number, ..DONE }
}

#[test]
fn a_live_number_keeps_flags_and_expiry() {
    let mut yard = Yard::with(4, &[text("x", 0, ""), number("n", 2, 5).flags(77).expiry(900)]);
    assert_eq!(yard.incr(10, "n", -7, Some((100, 5))), sum(-2));
    assert_eq!(yard.order(), "n x");
    assert_eq!(yard.record(0), [900, 3, 77, 2, 1, 8]);
    assert_eq!(yard.value(0), (-2i64).to_le_bytes());
    assert_eq!(yard.incr(10, "n", 0, None), sum(-2));
}

#[test]
fn missing_or_dead_without_an_initial_number() {
    let mut yard = Yard::with(4, &[number("n", 2, 5).expiry(9), text("x", 0, "")]);
    let before = yard.clone();
    assert_eq!(yard.incr(10, "none", 1, None), refused(8, 0));
    assert_eq!(yard.incr(10, "n", 1, None), refused(8, 0));
    assert_eq!(yard, before);
}

#[test]
fn not_a_number() {
    let mut yard = Yard::with(4, &[text("t", 0, "8 bytes!"), boolean("b", 1, 1), text("last", 2, "")]);
    let before = yard.clone();
    for initial in [None, Some((1, 1))] {
        assert_eq!(yard.incr(10, "t", 1, initial), refused(10, 0));
        assert_eq!(yard.incr(10, "b", 1, initial), refused(10, 0));
    }
    assert_eq!(yard, before);
}

#[test]
fn a_dead_entry_of_any_kind_gives_way_to_the_initial_number() {
    // Equal length: in place. Flags 0.
    let mut yard = Yard::with(4, &[text("t", 2, "8 bytes!").expiry(9).flags(5), text("x", 0, "")]);
    assert_eq!(yard.incr(10, "t", 2, Some((5, 30))), sum(7));
    assert_eq!(yard.record(0), [40, 3, 0, 2, 1, 8]);
    // Another length: placed anew, the old one not counted.
    let mut yard = Yard::with(4, &[boolean("b", 2, 1).expiry(9), text("x", 0, "")]);
    assert_eq!(yard.incr(10, "b", 2, Some((5, 0))), sum(7));
    assert_eq!(yard.record(0), [0, 3, 0, 1, 1, 8]);
    assert_eq!(yard.order(), "b x");
}

#[test]
fn sums_out_of_range() {
    let extremes = Yard::with(
        4,
        &[number("max", 0, i64::MAX), number("min", 1, i64::MIN), number("old", 2, 0).expiry(9), text("x", 3, "")],
    );
    let mut yard = extremes.clone();
    assert_eq!(yard.incr(10, "max", 1, None), refused(11, 0));
    assert_eq!(yard.incr(10, "max", i64::MAX, None), refused(11, 0));
    assert_eq!(yard.incr(10, "min", -1, None), refused(11, 0));
    assert_eq!(yard.incr(10, "min", i64::MIN, None), refused(11, 0));
    assert_eq!(yard.incr(10, "none", 1, Some((i64::MAX, 0))), refused(11, 0));
    assert_eq!(yard.incr(10, "none", -1, Some((i64::MIN, 0))), refused(11, 0));
    assert_eq!(yard.incr(10, "old", -1, Some((i64::MIN, 0))), refused(11, 0));
    assert_eq!(yard, extremes);
    assert_eq!(yard.incr(10, "max", i64::MIN, None), sum(-1));
    assert_eq!(yard.incr(10, "min", i64::MAX, None), sum(-1));
    assert_eq!(yard.incr(10, "old", 0, Some((i64::MAX, 0))), sum(i64::MAX));
}

#[test]
fn an_initial_number_is_stored_as_a_plain_set_would() {
    let mut yard = Yard::full();
    assert_eq!(yard.incr(10, "e", 1, Some((1, 5))), Answer { kind: 3, number: 2, ..stored(1, 1) });
    assert_eq!(yard.order(), "e d c b");
    assert_eq!(yard.record(0), [15, 3, 0, 0, 1, 8]);
    // A 12 holds neither kind nor number (decision 27 of docs/DECISIONS.md).
    let mut yard = Yard::full();
    assert_eq!(yard.incr(10, &"k".repeat(200), 1, Some((1, 5))), refused(12, 0));
    assert_eq!(yard, Yard::full());
}

#[test]
fn a_number_is_eight_bytes_lowest_first() {
    let mut yard = Yard::fresh(1);
    assert_eq!(yard.incr(10, "n", 0x0102_0304_0506_0708, Some((0, 0))), sum(0x0102_0304_0506_0708));
    assert_eq!(yard.value(0), [8, 7, 6, 5, 4, 3, 2, 1]);
    assert_eq!(yard.set(10, "n", weight(i64::MIN)), DONE);
    assert_eq!(yard.value(0), [0, 0, 0, 0, 0, 0, 0, 128]);
    assert_eq!(yard.get(10, "n").number, i64::MIN);
}
