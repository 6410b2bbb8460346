//! A dictionary over two buffers: how they are lent and given back, made fresh and audited.

use crate::answer::{Answer, UNWRITTEN};
use crate::{ffi, Refused};

/// The bytes of a cell of the pool.
pub const CELL_BYTES: usize = 32;

/// The most cells that a pool may have; the least is 1.
pub const MAX_CELLS: usize = 1024;

/// The longest key, in bytes.
pub const MAX_KEY_BYTES: usize = 65_535;

/// The length in words of the directory for so many cells.
pub const fn dir_words(cells: usize) -> usize {
    cells.saturating_mul(6).saturating_add(2)
}

/// The length in bytes of the pool for so many cells.
pub const fn pool_bytes(cells: usize) -> usize {
    cells.saturating_mul(CELL_BYTES)
}

/// A dictionary over a directory `D` of words and a pool `P` of bytes.
///
/// The buffers may be lent (`&mut [u64]` and `&mut [u8]`), owned (`Vec`, `Box<[_]>`, arrays) or, for the calls that
/// change nothing, only read (`&[u64]` and `&[u8]`). They may be kept, copied and handed in again: a memory that is
/// not sound is refused by each call, and left as it is.
///
/// A memory that other programs have mapped too is used under a lock of the caller's own, as the crate's page says.
///
/// A value that a call lends out of the pool cannot be held across a call that may change it:
///
/// ```compile_fail,E0499
/// # use reefcandor::{Dict, Value};
/// let mut dict = Dict::new(4)?;
/// dict.set(1, b"note", Value::Text(b"axle 2 lifted"), 0, 0)?;
/// let note = dict.get(1, b"note")?.value;
/// dict.delete(1, b"note")?;
/// assert_eq!(note, Value::Text(b"axle 2 lifted"));
/// # Ok::<(), reefcandor::Refused>(())
/// ```
#[derive(Debug, Clone, PartialEq, Eq)]
pub struct Dict<D = Vec<u64>, P = Vec<u8>> {
    pub(crate) dir: D,
    pub(crate) pool: P,
}

impl Dict {
    /// An empty dictionary of so many cells, from 1 to [`MAX_CELLS`], in buffers of its own.
    pub fn new(cells: usize) -> Result<Self, Refused> {
        // past the largest no memory is asked for: the lengths for no cells are refused just so
        let cells = if cells <= MAX_CELLS { cells } else { 0 };
        let mut dict = Dict::from_parts(vec![0; dir_words(cells)], vec![0; pool_bytes(cells)]);
        dict.make_fresh()?;
        Ok(dict)
    }
}

impl<D, P> Dict<D, P> {
    /// A dictionary over two buffers of any contents and lengths; nothing in them is looked at or changed.
    pub const fn from_parts(dir: D, pool: P) -> Self {
        Dict { dir, pool }
    }

    /// The two buffers back.
    pub fn into_parts(self) -> (D, P) {
        (self.dir, self.pool)
    }
}

impl<D: AsRef<[u64]>, P: AsRef<[u8]>> Dict<D, P> {
    /// The directory's words.
    pub fn dir(&self) -> &[u64] {
        self.dir.as_ref()
    }

    /// The pool's bytes.
    pub fn pool(&self) -> &[u8] {
        self.pool.as_ref()
    }

    /// True exactly if the memory is sound and all keys differ. Changes nothing.
    pub fn audit(&self) -> bool {
        let (dir, pool) = (self.dir(), self.pool());
        // SAFETY: the pointers and lengths are those of two slices, which the call only reads.
        unsafe { ffi::reefcandor_audit(dir.as_ptr(), dir.len(), pool.as_ptr(), pool.len()) }
    }
}

impl<D: AsMut<[u64]>, P: AsMut<[u8]>> Dict<D, P> {
    /// Makes an empty memory, whatever stood there, in buffers of the right lengths. The whole pool becomes zero.
    pub fn make_fresh(&mut self) -> Result<(), Refused> {
        let (dir, pool) = (self.dir.as_mut(), self.pool.as_mut());
        let mut words = UNWRITTEN;
        // SAFETY: the pointers and lengths are those of slices; `dir` and `pool` are borrowed exclusively, so that
        // neither overlaps anything and no other thread uses them.
        unsafe { ffi::reefcandor_make_fresh(dir.as_mut_ptr(), dir.len(), pool.as_mut_ptr(), pool.len(), &mut words) };
        Answer::of(words).map(|_| ())
    }
}
