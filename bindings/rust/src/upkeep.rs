//! The calls that take entries out or give them another expiry.

use crate::answer::{Answer, UNWRITTEN};
use crate::{ffi, Dict, Refused};

impl<D: AsMut<[u64]>, P: AsMut<[u8]>> Dict<D, P> {
    /// Sweeps. The entry under the key leaves, live or dead, if there is one. Tells how many the sweep took.
    pub fn delete(&mut self, clock: u64, key: &[u8]) -> Result<u64, Refused> {
        let (dir, pool) = (self.dir.as_mut(), self.pool.as_mut());
        let mut words = UNWRITTEN;
        // SAFETY: the pointers and lengths are those of slices; `dir` and `pool` are borrowed exclusively, so that
        // neither overlaps the key or each other and no other thread uses them.
        unsafe {
            ffi::reefcandor_delete(
                dir.as_mut_ptr(),
                dir.len(),
                pool.as_mut_ptr(),
                pool.len(),
                clock,
                key.as_ptr(),
                key.len(),
                &mut words,
            )
        };
        Answer::of(words).map(|answer| answer.stored.removed)
    }

    /// Gives a live entry the expiry of this lifetime from now, 0 for never. Neither sweeps nor moves.
    pub fn expire(&mut self, clock: u64, key: &[u8], lifetime: u64) -> Result<(), Refused> {
        let (dir, pool) = (self.dir.as_mut(), self.pool.as_mut());
        let mut words = UNWRITTEN;
        // SAFETY: the pointers and lengths are those of slices; `dir`, the one that changes, is borrowed exclusively,
        // so that it overlaps none of the others and no other thread uses it.
        unsafe {
            ffi::reefcandor_expire(
                dir.as_mut_ptr(),
                dir.len(),
                pool.as_ptr(),
                pool.len(),
                clock,
                key.as_ptr(),
                key.len(),
                lifetime,
                &mut words,
            )
        };
        Answer::of(words).map(|_| ())
    }

    /// Every entry's expiry becomes 1: from now on all are dead. Nothing leaves.
    pub fn flush_all(&mut self) -> Result<(), Refused> {
        let (dir, pool) = (self.dir.as_mut(), self.pool.as_mut());
        let mut words = UNWRITTEN;
        // SAFETY: the pointers and lengths are those of slices; `dir`, the one that changes, is borrowed exclusively,
        // so that it does not overlap the pool and no other thread uses it.
        unsafe { ffi::reefcandor_flush_all(dir.as_mut_ptr(), dir.len(), pool.as_ptr(), pool.len(), &mut words) };
        Answer::of(words).map(|_| ())
    }

    /// Dead entries leave, longest unused first, up to a maximum (0 for all). Tells how many.
    pub fn flush_expired(&mut self, clock: u64, maximum: u64) -> Result<u64, Refused> {
        let (dir, pool) = (self.dir.as_mut(), self.pool.as_mut());
        let mut words = UNWRITTEN;
        // SAFETY: the pointers and lengths are those of slices; `dir` and `pool` are borrowed exclusively, so that
        // neither overlaps the other and no other thread uses them.
        unsafe {
            ffi::reefcandor_flush_expired(
                dir.as_mut_ptr(),
                dir.len(),
                pool.as_mut_ptr(),
                pool.len(),
                clock,
                maximum,
                &mut words,
            )
        };
        Answer::of(words).map(|answer| answer.stored.removed)
    }
}
