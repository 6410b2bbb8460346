//! The calls that look something up. All but `get` change nothing.

use crate::answer::{part, Answer, UNWRITTEN};
use crate::{ffi, Dict, Found, Refused, Row, CELL_BYTES};

impl<D: AsMut<[u64]>, P: AsMut<[u8]>> Dict<D, P> {
    /// Sweeps. Finds the live entry under the key and moves it to the front of the use order.
    pub fn get(&mut self, clock: u64, key: &[u8]) -> Result<Found<'_>, Refused> {
        let (dir, pool) = (self.dir.as_mut(), self.pool.as_mut());
        let mut words = UNWRITTEN;
        // SAFETY: the pointers and lengths are those of slices; `dir` and `pool` are borrowed exclusively, so that
        // neither overlaps the key or each other and no other thread uses them.
        unsafe {
            ffi::reefcandor_get(
                dir.as_mut_ptr(),
                dir.len(),
                pool.as_mut_ptr(),
                pool.len(),
                clock,
                key.as_ptr(),
                key.len(),
                &mut words,
            )
        };
        Answer::of(words).map(|answer| answer.found(pool))
    }
}

impl<D: AsRef<[u64]>, P: AsRef<[u8]>> Dict<D, P> {
    /// Finds the entry under the key, live or dead, and marks it stale exactly if it is dead.
    pub fn get_stale(&self, clock: u64, key: &[u8]) -> Result<Found<'_>, Refused> {
        let (dir, pool) = (self.dir(), self.pool());
        let mut words = UNWRITTEN;
        // SAFETY: the pointers and lengths are those of slices, which the call only reads.
        unsafe {
            ffi::reefcandor_get_stale(
                dir.as_ptr(),
                dir.len(),
                pool.as_ptr(),
                pool.len(),
                clock,
                key.as_ptr(),
                key.len(),
                &mut words,
            )
        };
        Answer::of(words).map(|answer| answer.found(pool))
    }

    /// What is left of a live entry's life, in milliseconds; 0 if it never expires.
    pub fn ttl(&self, clock: u64, key: &[u8]) -> Result<u64, Refused> {
        let (dir, pool) = (self.dir(), self.pool());
        let mut words = UNWRITTEN;
        // SAFETY: the pointers and lengths are those of slices, which the call only reads.
        unsafe {
            ffi::reefcandor_ttl(
                dir.as_ptr(),
                dir.len(),
                pool.as_ptr(),
                pool.len(),
                clock,
                key.as_ptr(),
                key.len(),
                &mut words,
            )
        };
        Answer::of(words).map(|answer| answer.number)
    }

    /// The live text under the key; the notice for every refusal of `get` and for every other kind.
    pub fn show<'a>(&'a self, clock: u64, key: &[u8], notice: &'a [u8]) -> &'a [u8] {
        let (dir, pool) = (self.dir(), self.pool());
        let mut place = [0; 3];
        // SAFETY: the pointers and lengths are those of slices, which the call only reads.
        unsafe {
            ffi::reefcandor_show(
                dir.as_ptr(),
                dir.len(),
                pool.as_ptr(),
                pool.len(),
                clock,
                key.as_ptr(),
                key.len(),
                &mut place,
            )
        };
        match place {
            [0, ..] => notice,
            [_, offset, length] => part(pool, offset, length),
        }
    }

    /// The part of the pool at an offset; the empty part where it would pass the pool's end.
    pub fn bytes_at(&self, offset: u64, length: u64) -> &[u8] {
        let pool = self.pool();
        let mut place = [0; 2];
        // SAFETY: the pointer and the length are those of a slice, which the call only reads.
        unsafe { ffi::reefcandor_bytes_at(pool.as_ptr(), pool.len(), offset, length, &mut place) };
        let [offset, length] = place;
        part(pool, offset, length)
    }

    /// Lists the live entries, most recently used first, up to a maximum (0 for none) and as many as the table has
    /// rows. The rows that were filled are lent back; the table's other rows stay as they are.
    pub fn get_keys<'t>(&self, clock: u64, maximum: u64, table: &'t mut [Row]) -> Result<&'t [Row], Refused> {
        let (dir, pool) = (self.dir(), self.pool());
        let words_of_table = size_of_val(table) / size_of::<u64>();
        let mut words = UNWRITTEN;
        // SAFETY: the pointers and lengths are those of slices, of which the call changes only the table. That is
        // borrowed exclusively, and a row is three words with nothing between them, of which any contents are a row.
        unsafe {
            ffi::reefcandor_get_keys(
                dir.as_ptr(),
                dir.len(),
                pool.as_ptr(),
                pool.len(),
                clock,
                maximum,
                table.as_mut_ptr().cast(),
                words_of_table,
                &mut words,
            )
        };
        let rows = Answer::of(words)?.number;
        Ok(usize::try_from(rows).ok().and_then(|rows| table.get(..rows)).unwrap_or_default())
    }

    /// The key that a row of `get_keys` tells, as long as the memory has not changed since.
    pub fn key_of(&self, row: &Row) -> &[u8] {
        self.bytes_at(row.start.saturating_mul(CELL_BYTES as u64), row.key_length)
    }
}
