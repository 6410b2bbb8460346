//! Any contents of the buffers: nothing panics, a refusal before the sweep leaves every word and byte, and a sound
//! memory stays sound.

use crate::yard::full;
use reefcandor::{Dict, Initial, Refusal, Refused, Row, Value};

/// Numbers that look random and are the same in each run (xorshift).
struct Numbers(u64);

impl Numbers {
    fn next(&mut self) -> u64 {
        self.0 ^= self.0 << 13;
        self.0 ^= self.0 >> 7;
        self.0 ^= self.0 << 17;
        self.0
    }

    fn below(&mut self, bound: u64) -> u64 {
        self.next() % bound
    }

    /// A number near a bound of its type more often than not.
    fn wild(&mut self) -> u64 {
        match self.below(4) {
            0 => self.below(8),
            1 => u64::MAX - self.below(8),
            2 => (1 << self.below(64)) - self.below(2),
            _ => self.next(),
        }
    }
}

/// One of the calls by chance, with arguments by chance.
fn any_call(dict: &mut Dict, numbers: &mut Numbers) -> Result<(), Refused> {
    let bytes = b"abcdefgh".repeat(20);
    let (from, clock, lifetime) = (numbers.below(6) as usize, numbers.wild(), numbers.wild());
    let key = &bytes[from..from + numbers.below(3) as usize];
    let text = Value::Text(&bytes[..numbers.below(100) as usize]);
    let value = [Value::Nil, Value::Boolean(true), Value::Number(lifetime as i64), text][numbers.below(4) as usize];
    let flags = numbers.next() as u32;
    match numbers.below(17) {
        0 => dict.get(clock, key).map(drop),
        1 => dict.get_stale(clock, key).map(drop),
        2 => dict.ttl(clock, key).map(drop),
        3 => dict.set(clock, key, value, lifetime, flags).map(drop),
        4 => dict.safe_set(clock, key, value, lifetime, flags).map(drop),
        5 => dict.add(clock, key, value, lifetime, flags).map(drop),
        6 => dict.safe_add(clock, key, value, lifetime, flags).map(drop),
        7 => dict.replace(clock, key, value, lifetime, flags).map(drop),
        8 => dict.incr(clock, key, lifetime as i64, None).map(drop),
        9 => dict.incr(clock, key, 1, Some(Initial { number: 1, lifetime })).map(drop),
        10 => dict.delete(clock, key).map(drop),
        11 => dict.expire(clock, key, lifetime),
        12 => dict.flush_all(),
        13 => dict.flush_expired(clock, numbers.below(3)).map(drop),
        14 => dict.get_keys(clock, numbers.below(3), &mut [Row::default(); 2]).map(drop),
        15 => {
            let _ = dict.show(clock, key, b"notice").to_vec();
            Ok(())
        }
        _ => {
            let _ = dict.bytes_at(lifetime, clock).to_vec();
            Ok(())
        }
    }
}

/// Makes calls by chance; those that are refused by checks 1 to 7 change nothing.
fn try_calls(dict: &mut Dict, numbers: &mut Numbers, calls: usize) {
    for _ in 0..calls {
        let before = dict.clone();
        let Err(refused) = any_call(dict, numbers) else { continue };
        if refused.refusal.number() <= Refusal::ExpiryTooLate.number() {
            assert_eq!(*dict, before);
            assert_eq!(refused.removed, 0);
        }
    }
}

#[test]
fn one_wild_word_in_a_full_yard() {
    let mut numbers = Numbers(1);
    let (dir, pool) = full(0).into_parts();
    for word in 0..dir.len() {
        for _ in 0..40 {
            let mut dir = dir.clone();
            dir[word] = numbers.wild();
            try_calls(&mut Dict::from_parts(dir, pool.clone()), &mut numbers, 10);
        }
    }
}

#[test]
fn wild_buffers_of_any_length() {
    let mut numbers = Numbers(2);
    for _ in 0..4000 {
        let dir = (0..numbers.below(40)).map(|_| numbers.wild()).collect();
        let pool = (0..numbers.below(200)).map(|_| numbers.next() as u8).collect();
        try_calls(&mut Dict::from_parts(dir, pool), &mut numbers, 5);
    }
}

#[test]
fn a_long_session_stays_sound() {
    let mut numbers = Numbers(3);
    let mut dict = Dict::new(5).expect("five cells");
    for _ in 0..3000 {
        try_calls(&mut dict, &mut numbers, 10);
        assert!(dict.audit());
    }
}

#[test]
fn one_wild_byte_of_a_boolean_is_not_sound() {
    let mut yard = full(0);
    assert!(yard.set(1, b"a", Value::Boolean(true), 0, 0).is_ok());
    let (dir, mut pool) = yard.into_parts();
    pool[1] = 2;
    let dict = Dict::from_parts(dir, pool);
    assert!(!dict.audit());
    assert_eq!(dict.ttl(1, b"b").map_err(Refusal::from), Err(Refusal::NotSound));
}

#[test]
fn equal_keys_are_sound_but_no_audit_passes_them() {
    let (dir, mut pool) = full(0).into_parts();
    pool[32] = b'a';
    let mut dict = Dict::from_parts(dir, pool);
    assert!(!dict.audit());
    // the most recently used one is meant
    assert_eq!(dict.get(1, b"a").map(|found| found.value), Ok(Value::Number(2)));
    assert_eq!(dict.delete(1, b"a"), Ok(0));
    assert_eq!(dict.get(1, b"a").map(|found| found.value), Ok(Value::Number(1)));
    assert!(dict.audit());
}
