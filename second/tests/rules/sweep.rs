//! "get, all stores, delete and incr first remove up to two dead entries from the long-unused end, stopping at the
//! first live one."

use crate::yard::*;
use second::Answer;

/// Live a, then dead b, c, d towards the long-unused end.
fn three_dead() -> Yard {
    let dead = |key, start| number(key, start, 1).expiry(500);
    Yard::with(6, &[number("a", 0, 1), dead("b", 1), dead("c", 2), dead("d", 3)])
}

#[test]
fn at_most_two() {
    let calls: [fn(&mut Yard) -> Answer; 11] = [
        |yard| yard.get(1000, "a"),
        |yard| yard.get(1000, "none"),
        |yard| yard.delete(1000, "none"),
        |yard| yard.incr(1000, "a", 1, None),
        |yard| yard.incr(1000, "none", 1, None),
        |yard| yard.set(1000, "none", NIL),
        |yard| yard.set(1000, "a", weight(1)),
        |yard| yard.safe_set(1000, "a", weight(1)),
        |yard| yard.add(1000, "a", weight(1)),
        |yard| yard.safe_add(1000, "a", weight(1)),
        |yard| yard.replace(1000, "none", weight(1)),
    ];
    for call in calls {
        let mut yard = three_dead();
        let answer = call(&mut yard);
        assert_eq!((answer.removed, answer.rounds, answer.forced), (2, 0, false));
        assert_eq!(yard.order(), "a b");
        assert!(yard.dir[14..].iter().all(|&word| word == 0));
    }
}

#[test]
fn calls_that_do_not_sweep() {
    let yard = three_dead();
    let mut after = yard.clone();
    assert_eq!(after.get_stale(1000, "d"), Answer { stale: true, kind: 3, number: 1, offset: 97, length: 8, ..DONE });
    assert_eq!(after.ttl(1000, "d"), refused(8, 0));
    assert_eq!(after.expire(1000, "d", 5), refused(8, 0));
    assert_eq!(after.get_keys(1000, 0, &mut [0; 12]), Answer { count: 1, ..DONE });
    assert_eq!(after.show(1000, "d", "notice"), b"notice");
    assert_eq!(after, yard);
}

#[test]
fn stops_at_the_first_live_entry() {
    let mut yard = Yard::with(4, &[number("a", 0, 1).expiry(9), number("b", 1, 1), number("c", 2, 1).expiry(9)]);
    assert_eq!(yard.get(10, "none"), refused(8, 1));
    assert_eq!(yard.order(), "a b");
    assert_eq!(yard.get(10, "none"), refused(8, 0));
    assert_eq!(yard.order(), "a b");
}

#[test]
fn until_nothing_is_left() {
    let mut yard = Yard::with(4, &[number("a", 0, 1).expiry(9)]);
    assert_eq!(yard.delete(10, "none"), stored(0, 1));
    assert_eq!(yard.dir, Yard::fresh(4).dir);
    assert_eq!(yard.delete(10, "none"), DONE);
}

#[test]
fn own_dead_entry_counts_only_if_swept() {
    // Decision 24 of docs/DECISIONS.md. Within reach of the sweep it is swept and counted.
    let mut yard = three_dead();
    assert_eq!(yard.delete(1000, "c"), stored(0, 2));
    assert_eq!(yard.order(), "a b");
    // Out of reach it is taken out as the call's own key and isn't.
    let mut yard = three_dead();
    assert_eq!(yard.delete(1000, "b"), stored(0, 2));
    assert_eq!(yard.order(), "a");
}

#[test]
fn a_swept_own_entry_is_placed_anew() {
    // Decision 28 of docs/DECISIONS.md: d is swept, so that it isn't overwritten in place but takes the lowest free
    // cell.
    let mut yard = three_dead();
    assert_eq!(yard.set(1000, "d", weight(5)), stored(0, 2));
    assert_eq!(yard.order(), "d a b");
    assert_eq!(yard.record(0)[3], 2);
    // b stays and is overwritten in place.
    let mut yard = three_dead();
    assert_eq!(yard.set(1000, "b", weight(5)), stored(0, 2));
    assert_eq!(yard.order(), "b a");
    assert_eq!(yard.record(0), [0, 3, 0, 1, 1, 8]);
}

#[test]
fn refusals_after_the_sweep_leave_it_done() {
    let mut yard = three_dead();
    assert_eq!(yard.add(1000, "a", weight(1)), refused(9, 2));
    let mut yard = three_dead();
    assert_eq!(yard.replace(1000, "b", weight(1)), refused(8, 2));
    assert_eq!(yard.order(), "a b");
    let mut yard = three_dead();
    yard.dir[3] = 4;
    assert_eq!(yard.incr(1000, "a", 1, None), refused(10, 2));
    let mut yard = three_dead();
    assert_eq!(yard.incr(1000, "a", i64::MAX, None), refused(11, 2));
    let mut yard = three_dead();
    assert_eq!(yard.safe_set(1000, "e", words(&[0; 160])), refused(12, 2));
    assert_eq!(yard.order(), "a b");
}
