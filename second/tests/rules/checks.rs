//! "Checks run in the order of the numbers 1 to 7, those that the call's arguments allow": decision 1 of
//! docs/DECISIONS.md.

use crate::yard::*;
use second::Answer;

/// The arguments of all calls together.
#[derive(Clone)]
struct Arguments {
    clock: u64,
    key: String,
    kind: u8,
    lifetime: u64,
}

type Call = fn(&mut Yard, &Arguments) -> Answer;

fn value(arguments: &Arguments) -> Value<'static> {
    Value { kind: arguments.kind, number: 1, text: b"", lifetime: arguments.lifetime, flags: 1 }
}

/// Decision 1 of docs/DECISIONS.md: each call and the checks that it makes.
const TABLE: [(&str, Call, &[u8]); 15] = [
    ("get", |yard, a| yard.get(a.clock, &a.key), &[1, 2, 3, 4]),
    ("get_stale", |yard, a| yard.get_stale(a.clock, &a.key), &[1, 2, 3, 4]),
    ("delete", |yard, a| yard.delete(a.clock, &a.key), &[1, 2, 3, 4]),
    ("ttl", |yard, a| yard.ttl(a.clock, &a.key), &[1, 2, 3, 4]),
    ("set", |yard, a| yard.set(a.clock, &a.key, value(a)), &[1, 2, 3, 4, 5, 7]),
    ("safe_set", |yard, a| yard.safe_set(a.clock, &a.key, value(a)), &[1, 2, 3, 4, 5, 7]),
    ("add", |yard, a| yard.add(a.clock, &a.key, value(a)), &[1, 2, 3, 4, 5, 6, 7]),
    ("safe_add", |yard, a| yard.safe_add(a.clock, &a.key, value(a)), &[1, 2, 3, 4, 5, 6, 7]),
    ("replace", |yard, a| yard.replace(a.clock, &a.key, value(a)), &[1, 2, 3, 4, 5, 6, 7]),
    ("incr", |yard, a| yard.incr(a.clock, &a.key, 1, None), &[1, 2, 3, 4]),
    ("incr, initial", |yard, a| yard.incr(a.clock, &a.key, 1, Some((1, a.lifetime))), &[1, 2, 3, 4, 7]),
    ("expire", |yard, a| yard.expire(a.clock, &a.key, a.lifetime), &[1, 2, 3, 4, 7]),
    ("flush_expired", |yard, a| yard.flush_expired(a.clock, 0), &[1, 2]),
    ("get_keys", |yard, a| yard.get_keys(a.clock, 0, &mut [0; 12]), &[1, 2]),
    ("flush_all", |yard, _| yard.flush_all(), &[1]),
];

/// A yard in which every call would change something: two dead entries to sweep, a live number.
fn yard() -> Yard {
    Yard::with(4, &[number("a", 0, 1), number("b", 1, 2).expiry(500), number("c", 2, 3).expiry(500)])
}

/// Arguments and a memory that fail exactly these checks. None if two of them cannot fail together.
fn failing(checks: &[u8]) -> Option<(Yard, Arguments)> {
    let has = |check| checks.contains(&check);
    if has(3) && has(4) || has(5) && has(6) {
        return None;
    }
    let mut yard = yard();
    let mut arguments = Arguments { clock: 1000, key: "a".into(), kind: 3, lifetime: 10 };
    if has(1) {
        yard.dir[0] = 2;
    }
    if has(3) {
        arguments.key.clear();
    }
    if has(4) {
        arguments.key = "k".repeat(65_536);
    }
    if has(5) {
        arguments.kind = 2;
    }
    if has(6) {
        arguments.kind = 0;
    }
    if has(7) {
        arguments.lifetime = u64::MAX - 999;
    }
    // With a clock of 0 no lifetime is too long: both fail together for no arguments at all.
    if has(2) && has(7) {
        return None;
    }
    if has(2) {
        arguments.clock = 0;
    }
    Some((yard, arguments))
}

fn assert_refused(name: &str, call: Call, checks: &[u8], expected: u8) {
    let Some((mut yard, arguments)) = failing(checks) else {
        return;
    };
    let before = yard.clone();
    assert_eq!(call(&mut yard, &arguments), refused(expected, 0), "{name} failing {checks:?}");
    assert_eq!(yard, before, "{name} failing {checks:?}");
}

#[test]
fn each_refusal() {
    for (name, call, checks) in TABLE {
        for &check in checks {
            assert_refused(name, call, &[check], check);
        }
    }
}

#[test]
fn each_pair_of_refusals_answers_the_lower() {
    for (name, call, checks) in TABLE {
        for &low in checks {
            for &high in checks.iter().filter(|&&high| high > low) {
                assert_refused(name, call, &[low, high], low);
            }
        }
    }
}

#[test]
fn all_that_can_fail_together() {
    for (name, call, checks) in TABLE {
        for without in [[3, 5, 2], [3, 6, 2], [4, 5, 2], [4, 6, 2], [3, 5, 7], [4, 6, 7]] {
            for first in 0..checks.len() {
                let failing: Vec<u8> = checks[first..].iter().copied().filter(|c| !without.contains(c)).collect();
                if let Some(&lowest) = failing.first() {
                    assert_refused(name, call, &failing, lowest);
                }
            }
        }
    }
}

#[test]
fn no_check_fails_for_good_arguments() {
    for (name, call, _) in TABLE {
        let (mut yard, arguments) = failing(&[]).unwrap();
        let outcome = call(&mut yard, &arguments).outcome;
        assert!(outcome == 0 || outcome >= 8, "{name} answers {outcome}");
    }
}

#[test]
fn every_other_kind_is_5() {
    for kind in (0..=255).filter(|kind| ![0, 1, 3, 4].contains(kind)) {
        for (form, _) in FORMS {
            let mut yard = yard();
            let before = yard.clone();
            assert_eq!(yard.store(form, 1000, b"a", Value { kind, ..weight(1) }), refused(5, 0));
            assert_eq!(yard, before);
        }
    }
}

#[test]
fn nil_and_a_late_expiry() {
    let nil = NIL.lifetime(u64::MAX);
    let mut yard = yard();
    let before = yard.clone();
    assert_eq!(yard.add(1, "a", nil), refused(6, 0));
    assert_eq!(yard.safe_add(1, "a", nil), refused(6, 0));
    assert_eq!(yard.replace(1, "a", nil), refused(6, 0));
    assert_eq!(yard.set(1, "a", nil), refused(7, 0));
    assert_eq!(yard.safe_set(1, "a", nil), refused(7, 0));
    assert_eq!(yard.set(1, "a", Value { kind: 2, ..nil }), refused(5, 0));
    assert_eq!(yard, before);
}

#[test]
fn incr_reads_the_lifetime_only_with_an_initial_number() {
    let mut yard = yard();
    let before = yard.clone();
    // Decision 3 of docs/DECISIONS.md: also where the entry is live and the initial number has no use.
    assert_eq!(yard.incr(u64::MAX, "a", 1, Some((1, 1))), refused(7, 0));
    assert_eq!(yard, before);
    assert_eq!(yard.incr(u64::MAX, "a", 1, None).outcome, 0);
    assert_eq!(yard.incr(u64::MAX, "a", 1, Some((1, 0))).outcome, 0);
}

#[test]
fn show_gives_the_notice_for_every_refusal() {
    let yard = Yard::with(4, &[text("a", 0, "text"), number("n", 1, 1), text("old", 2, "x").expiry(500)]);
    assert_eq!(yard.show(1000, "a", "notice"), b"text");
    assert_eq!(yard.show(0, "a", "notice"), b"notice");
    assert_eq!(yard.show(1000, "", "notice"), b"notice");
    assert_eq!(yard.show(1000, &"k".repeat(65_536), "notice"), b"notice");
    assert_eq!(yard.show(1000, "missing", "notice"), b"notice");
    assert_eq!(yard.show(1000, "old", "notice"), b"notice");
    assert_eq!(yard.show(499, "old", "notice"), b"x");
    assert_eq!(yard.show(1000, "n", "notice"), b"notice");
    let mut unsound = yard.clone();
    unsound.dir[0] = 2;
    assert_eq!(unsound.show(1000, "a", "notice"), b"notice");
}
