//! "Only that value counts, and it may be lower than the last one."

use crate::yard::*;
use second::Answer;

#[test]
fn a_clock_that_goes_back_revives() {
    let mut yard = Yard::with(4, &[number("a", 0, 1).expiry(500), number("b", 1, 2)]);
    assert_eq!(yard.get(500, "a"), refused(8, 0));
    assert_eq!(yard.ttl(500, "a"), refused(8, 0));
    assert_eq!(yard.ttl(499, "a"), Answer { count: 1, ..DONE });
    assert_eq!(yard.get(1, "a").outcome, 0);
    assert_eq!(yard.add(499, "a", weight(3)), refused(9, 0));
    assert_eq!(yard.expire(499, "a", 1), DONE);
    assert_eq!(yard.get(500, "a"), refused(8, 0));
    assert_eq!(yard.order(), "a b");
}

#[test]
fn flushed_entries_are_dead_at_every_clock() {
    let mut yard = Yard::full();
    assert_eq!(yard.flush_all(), DONE);
    assert_eq!(yard.get_stale(1, "a"), Answer { stale: true, kind: 3, number: 1, offset: 1, length: 8, ..DONE });
    assert_eq!(yard.get(1, "a"), refused(8, 2));
    assert_eq!(yard.order(), "d c");
}

#[test]
fn a_store_at_an_earlier_clock() {
    let mut yard = Yard::fresh(4);
    assert_eq!(yard.set(1000, "a", weight(1).lifetime(10)), DONE);
    assert_eq!(yard.set(5, "b", weight(1).lifetime(10)), DONE);
    assert_eq!(yard.record(0)[0], 15);
    assert_eq!(yard.record(1)[0], 1010);
    assert_eq!(yard.get(1000, "b"), refused(8, 0));
    assert_eq!(yard.get(14, "b").outcome, 0);
}

#[test]
fn expiries_up_to_the_last_word() {
    let mut yard = Yard::fresh(4);
    let last = u64::MAX;
    assert_eq!(yard.set(last, "a", weight(1).lifetime(0)), DONE);
    assert_eq!(yard.record(0)[0], 0);
    assert_eq!(yard.set(last, "a", weight(1).lifetime(1)), refused(7, 0));
    assert_eq!(yard.set(1, "a", weight(1).lifetime(last)), refused(7, 0));
    assert_eq!(yard.set(1, "a", weight(1).lifetime(last - 1)), DONE);
    assert_eq!(yard.record(0)[0], last);
    assert_eq!(yard.get(last - 1, "a").outcome, 0);
    assert_eq!(yard.expire(last - 1, "a", 2), refused(7, 0));
    assert_eq!(yard.expire(last - 1, "a", 1), DONE);
    assert_eq!(yard.incr(2, "n", 1, Some((1, last - 1))), refused(7, 0));
    assert_eq!(yard.incr(2, "n", 1, Some((1, last - 2))).outcome, 0);
    assert_eq!(yard.record(0)[0], last);
    assert_eq!(yard.get(last, "a"), refused(8, 2));
}

#[test]
fn expire_sets_a_live_entry_and_moves_nothing() {
    let mut yard = Yard::full();
    assert_eq!(yard.expire(10, "b", 90), DONE);
    assert_eq!(yard.record(2), [100, 3, 0, 1, 1, 8]);
    assert_eq!(yard.expire(99, "b", 0), DONE);
    assert_eq!(yard, Yard::full());
    assert_eq!(yard.expire(99, "b", 1), DONE);
    assert_eq!(yard.expire(100, "b", 1), refused(8, 0));
    assert_eq!(yard.expire(100, "none", 1), refused(8, 0));
    assert_eq!(yard.order(), "d c b a");
}
