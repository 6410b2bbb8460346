//! Each refusal: its number, its words, and that it carries no more than document 01 lets it tell.

use crate::yard::{bare, fresh, full, order, PLAIN};
use reefcandor::{ffi, Dict, Initial, Refusal, Refused, Row, Value, MAX_KEY_BYTES};
use std::collections::HashSet;
use std::error::Error;

const NUMBER: Value = Value::Number(5);

#[test]
fn numbers_are_those_of_the_header() {
    for (number, refusal) in (1..=12).zip(Refusal::ALL) {
        assert_eq!(refusal.number(), number);
        assert_eq!(Refusal::from_number(number), Some(refusal));
    }
    // 0 is done, and 13 is for replay lines alone
    for number in [0, 13, 14, 256, u64::MAX] {
        assert_eq!(Refusal::from_number(number), None);
    }
}

#[test]
fn every_refusal_is_an_error_with_words_of_its_own() {
    let words: HashSet<String> = Refusal::ALL.iter().map(Refusal::to_string).collect();
    assert_eq!(words.len(), Refusal::ALL.len());
    let refused: Box<dyn Error> = Box::new(bare(Refusal::KeyEmpty));
    assert_eq!(refused.to_string(), "the key is empty");
    assert_eq!(Refusal::from(bare(Refusal::KeyEmpty)), Refusal::KeyEmpty);
}

/// What every call but `audit`, `show` and `bytes_at`, which answer nothing, is refused with.
fn refusals_of_all<D, P>(dict: &mut Dict<D, P>, clock: u64, key: &[u8]) -> Vec<Result<(), Refused>>
where
    D: AsRef<[u64]> + AsMut<[u64]>,
    P: AsRef<[u8]> + AsMut<[u8]>,
{
    vec![
        dict.get(clock, key).map(drop),
        dict.get_stale(clock, key).map(drop),
        dict.ttl(clock, key).map(drop),
        dict.set(clock, key, NUMBER, 0, 0).map(drop),
        dict.safe_set(clock, key, NUMBER, 0, 0).map(drop),
        dict.add(clock, key, NUMBER, 0, 0).map(drop),
        dict.safe_add(clock, key, NUMBER, 0, 0).map(drop),
        dict.replace(clock, key, NUMBER, 0, 0).map(drop),
        dict.incr(clock, key, 1, None).map(drop),
        dict.delete(clock, key).map(drop),
        dict.expire(clock, key, 0),
        dict.flush_expired(clock, 0).map(drop),
        dict.get_keys(clock, 0, &mut [Row::default()]).map(drop),
        dict.flush_all(),
    ]
}

#[test]
fn not_sound_is_refused_by_every_call_and_leaves_all() {
    let mut yard = full(0).into_parts();
    yard.0[0] = 2;
    let mut yard = Dict::from_parts(yard.0, yard.1);
    let before = yard.clone();
    for refused in refusals_of_all(&mut yard, 1000, b"a") {
        assert_eq!(refused, Err(bare(Refusal::NotSound)));
    }
    assert!(!yard.audit());
    assert_eq!(yard.show(1000, b"a", b"notice"), b"notice");
    assert_eq!(yard, before);
}

#[test]
fn clock_0_is_refused_by_every_call_that_has_one() {
    let mut yard = full(0);
    let before = yard.clone();
    let mut refusals = refusals_of_all(&mut yard, 0, b"");
    assert_eq!(refusals.pop(), Some(Ok(())), "flush_all has no clock");
    assert_eq!(refusals, vec![Err(bare(Refusal::ClockZero)); 13]);
    assert_eq!(yard.pool(), before.pool());
}

#[test]
fn an_empty_key_and_one_too_long_are_refused_by_every_call_that_has_one() {
    let long = vec![b'k'; MAX_KEY_BYTES + 1];
    for (key, refusal) in [(&b""[..], Refusal::KeyEmpty), (&long, Refusal::KeyTooLong)] {
        let mut yard = full(0);
        let refusals = refusals_of_all(&mut yard, 1000, key);
        assert_eq!(refusals[..11], vec![Err(bare(refusal)); 11]);
        assert_eq!(refusals[11..], [Ok(()); 3], "flush_expired, get_keys and flush_all have no key");
    }
}

#[test]
fn the_longest_key_finds_no_place() {
    let key = vec![b'k'; MAX_KEY_BYTES];
    assert_eq!(fresh().set(1, &key, Value::Text(b""), 0, 0), Err(bare(Refusal::NoMemory)));
}

#[test]
fn a_kind_that_no_value_has_is_refused_by_the_library() {
    let (mut dir, mut pool) = full(0).into_parts();
    let mut words = [0; 10];
    // SAFETY: the pointers and lengths are those of slices that nothing else uses.
    unsafe {
        ffi::reefcandor_set(
            dir.as_mut_ptr(),
            dir.len(),
            pool.as_mut_ptr(),
            pool.len(),
            1,
            b"a".as_ptr(),
            1,
            2,
            0,
            b"".as_ptr(),
            0,
            0,
            0,
            &mut words,
        )
    };
    assert_eq!(Refusal::from_number(words[0]), Some(Refusal::KindUnknown));
    assert_eq!(words[1..], [0; 9]);
}

#[test]
fn nil_is_refused_where_it_is_no_delete() {
    let mut yard = full(0);
    assert_eq!(yard.add(1, b"a", Value::Nil, 0, 0), Err(bare(Refusal::NilRefused)));
    assert_eq!(yard.safe_add(1, b"a", Value::Nil, 0, 0), Err(bare(Refusal::NilRefused)));
    assert_eq!(yard.replace(1, b"a", Value::Nil, 0, 0), Err(bare(Refusal::NilRefused)));
    assert_eq!(order(&yard, 1), "dcba");
}

#[test]
fn an_expiry_past_64_bits_is_too_late() {
    let mut yard = full(0);
    let late = Err(bare(Refusal::ExpiryTooLate));
    assert_eq!(yard.set(2, b"a", NUMBER, u64::MAX - 1, 0), late);
    assert_eq!(yard.set(2, b"a", Value::Nil, u64::MAX - 1, 0), late, "nil checks its lifetime too");
    assert_eq!(yard.expire(2, b"a", u64::MAX - 1).map(|()| PLAIN), late);
    let initial = Initial { number: 0, lifetime: u64::MAX - 1 };
    assert_eq!(yard.incr(2, b"a", 1, Some(initial)).map(|counted| counted.stored), late);
    assert_eq!(yard.expire(2, b"a", u64::MAX - 2), Ok(()));
}

#[test]
fn refusals_after_the_sweep_tell_what_it_took_and_no_value() {
    let swept = |refusal| Err(Refused { removed: 1, ..bare(refusal) });
    let yard = || {
        let mut yard = full(0);
        assert_eq!(yard.set(1000, b"d", Value::Number(i64::MAX), 0, 7), Ok(PLAIN));
        assert_eq!(yard.set(1000, b"c", Value::Boolean(true), 0, 7), Ok(PLAIN));
        assert_eq!(yard.expire(1000, b"a", 500), Ok(()));
        yard
    };
    assert_eq!(yard().get(1500, b"a").map(drop), swept(Refusal::NotFound));
    assert_eq!(yard().replace(1500, b"a", NUMBER, 0, 0).map(drop), swept(Refusal::NotFound));
    assert_eq!(yard().incr(1500, b"a", 1, None).map(drop), swept(Refusal::NotFound));
    assert_eq!(yard().add(1500, b"c", NUMBER, 0, 0).map(drop), swept(Refusal::Exists));
    assert_eq!(yard().safe_add(1500, b"c", NUMBER, 0, 0).map(drop), swept(Refusal::Exists));
    assert_eq!(yard().incr(1500, b"c", 1, None).map(drop), swept(Refusal::NotNumber));
    assert_eq!(yard().incr(1500, b"d", 1, None).map(drop), swept(Refusal::SumTooLarge));
    let text = Value::Text(&[0; 64]);
    assert_eq!(yard().safe_set(1500, b"e", text, 0, 0).map(drop), swept(Refusal::NoMemory));
    assert_eq!(yard().safe_add(1500, b"e", text, 0, 0).map(drop), swept(Refusal::NoMemory));
}

#[test]
fn calls_that_do_not_sweep_tell_nothing_besides_not_found() {
    let mut yard = full(500);
    let before = yard.clone();
    assert_eq!(yard.ttl(1500, b"b"), Err(bare(Refusal::NotFound)));
    assert_eq!(yard.get_stale(1500, b"nobody"), Err(bare(Refusal::NotFound)));
    assert_eq!(yard.expire(1500, b"b", 9), Err(bare(Refusal::NotFound)));
    assert_eq!(yard, before);
}
