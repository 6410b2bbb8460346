//! The calls that store: each sweeps, and then writes over the key's entry if its value has the same length; else that
//! entry leaves and the new one takes the lowest place that is free. Where there is none, rounds make one.

use crate::answer::{Answer, UNWRITTEN};
use crate::{ffi, Counted, Dict, Refused, Stored, Value};

/// What an `incr` begins with where there is no live entry.
#[derive(Debug, Clone, Copy, PartialEq, Eq, Hash)]
pub struct Initial {
    /// The number that the step is added to.
    pub number: i64,
    /// The lifetime of the new entry in milliseconds, 0 for ever.
    pub lifetime: u64,
}

impl<D: AsMut<[u64]>, P: AsMut<[u8]>> Dict<D, P> {
    /// Stores a value under a key, at the front of the use order; nil deletes the entry. Up to 30 rounds make a place
    /// where there is none: each takes the longest unused entry, whatever its state, and then up to two dead ones.
    pub fn set(
        &mut self, clock: u64, key: &[u8], value: Value<'_>, lifetime: u64, flags: u32,
    ) -> Result<Stored, Refused> {
        self.store(ffi::reefcandor_set, clock, key, value, lifetime, flags)
    }

    /// As [`set`](Dict::set), but runs no rounds: without a free place it is refused, and the old entry is gone.
    pub fn safe_set(
        &mut self, clock: u64, key: &[u8], value: Value<'_>, lifetime: u64, flags: u32,
    ) -> Result<Stored, Refused> {
        self.store(ffi::reefcandor_safe_set, clock, key, value, lifetime, flags)
    }

    /// As [`set`](Dict::set), but a live entry under the key is a refusal, and so is nil.
    pub fn add(
        &mut self, clock: u64, key: &[u8], value: Value<'_>, lifetime: u64, flags: u32,
    ) -> Result<Stored, Refused> {
        self.store(ffi::reefcandor_add, clock, key, value, lifetime, flags)
    }

    /// As [`add`](Dict::add), but runs no rounds.
    pub fn safe_add(
        &mut self, clock: u64, key: &[u8], value: Value<'_>, lifetime: u64, flags: u32,
    ) -> Result<Stored, Refused> {
        self.store(ffi::reefcandor_safe_add, clock, key, value, lifetime, flags)
    }

    /// As [`set`](Dict::set), but a missing or dead entry is a refusal, and so is nil.
    pub fn replace(
        &mut self, clock: u64, key: &[u8], value: Value<'_>, lifetime: u64, flags: u32,
    ) -> Result<Stored, Refused> {
        self.store(ffi::reefcandor_replace, clock, key, value, lifetime, flags)
    }

    /// Makes one of the five calls above.
    fn store(
        &mut self, call: ffi::Store, clock: u64, key: &[u8], value: Value<'_>, lifetime: u64, flags: u32,
    ) -> Result<Stored, Refused> {
        let (dir, pool) = (self.dir.as_mut(), self.pool.as_mut());
        let (kind, number, text) = value.to_arguments();
        let mut words = UNWRITTEN;
        // SAFETY: `call` is a store of the library. The pointers and lengths are those of slices; `dir` and `pool` are
        // borrowed exclusively, so that neither overlaps key, text or each other and no other thread uses them.
        unsafe {
            call(
                dir.as_mut_ptr(),
                dir.len(),
                pool.as_mut_ptr(),
                pool.len(),
                clock,
                key.as_ptr(),
                key.len(),
                kind,
                number,
                text.as_ptr(),
                text.len(),
                lifetime,
                flags,
                &mut words,
            )
        };
        Answer::of(words).map(|answer| answer.stored)
    }

    /// Sweeps. Adds the step to the live number under the key, which keeps flags and expiry and moves to the front. A
    /// missing or dead one is stored as the sum of the initial number and the step, with flags 0, where there is one.
    pub fn incr(&mut self, clock: u64, key: &[u8], step: i64, initial: Option<Initial>) -> Result<Counted, Refused> {
        let (dir, pool) = (self.dir.as_mut(), self.pool.as_mut());
        let Initial { number, lifetime } = initial.unwrap_or(Initial { number: 0, lifetime: 0 });
        let mut words = UNWRITTEN;
        // SAFETY: the pointers and lengths are those of slices; `dir` and `pool` are borrowed exclusively, so that
        // neither overlaps the key or each other and no other thread uses them.
        unsafe {
            ffi::reefcandor_incr(
                dir.as_mut_ptr(),
                dir.len(),
                pool.as_mut_ptr(),
                pool.len(),
                clock,
                key.as_ptr(),
                key.len(),
                step,
                initial.is_some(),
                number,
                lifetime,
                &mut words,
            )
        };
        // the number's word has the bits of a signed one
        Answer::of(words).map(|answer| Counted { number: answer.number as i64, stored: answer.stored })
    }
}
