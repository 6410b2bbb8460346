//! flush_all and flush_expired.

use crate::yard::*;

#[test]
fn flush_all_sets_every_expiry_to_1() {
    let entries = |expiries: [u64; 3]| {
        let [a, b, c] = expiries;
        Yard::with(
            4,
            &[number("a", 0, 1).expiry(a).flags(3), text("b", 1, "x").expiry(b), boolean("c", 2, 1).expiry(c)],
        )
    };
    let mut yard = entries([0, 500, u64::MAX]);
    assert_eq!(yard.flush_all(), DONE);
    assert_eq!(yard, entries([1, 1, 1]));
    let mut empty = Yard::fresh(4);
    assert_eq!(empty.flush_all(), DONE);
    assert_eq!(empty, Yard::fresh(4));
}

/// Dead: a, c, d, f. From the long-unused end: f, d, c, a.
fn alternating() -> Yard {
    let entry = |key, start| number(key, start, 1);
    Yard::with(
        6,
        &[
            entry("a", 0).expiry(9),
            entry("b", 1),
            entry("c", 2).expiry(10),
            entry("d", 3).expiry(1),
            entry("e", 4).expiry(11),
            entry("f", 5).expiry(5),
        ],
    )
}

#[test]
fn flush_expired_takes_the_longest_unused_first() {
    let dead = [5, 3, 2, 0];
    for (maximum, removed, order) in
        [(0, 4, "b e"), (1, 1, "a b c d e"), (2, 2, "a b c e"), (3, 3, "a b e"), (4, 4, "b e"), (u64::MAX, 4, "b e")]
    {
        let mut yard = alternating();
        assert_eq!(yard.flush_expired(10, maximum), stored(0, removed));
        assert_eq!(yard.order(), order);
        assert_eq!(yard.pool, alternating().pool_without(dead.into_iter().take(removed as usize)));
        assert!(yard.dir[2 + 6 * yard.count()..].iter().all(|&word| word == 0));
        assert!(yard.audit());
    }
}

#[test]
fn flush_expired_may_take_everything() {
    let mut yard = Yard::with(1024, &[]);
    for at in 0..1024 {
        assert_eq!(yard.set(10, &at.to_string(), weight(at).lifetime(5)), DONE);
    }
    assert_eq!(yard.flush_expired(14, 0), DONE);
    assert_eq!(yard.flush_expired(15, 0), stored(0, 1024));
    assert_eq!(yard.dir, Yard::fresh(1024).dir);
}
