//! The cells of the pool: how many an entry needs, which are taken, where a new entry fits.

use std::ops::Range;

/// "The pool has P cells of 32 bytes"
pub(crate) const CELL: usize = 32;
/// "P from 1 to 1,024"
pub(crate) const MOST_CELLS: usize = 1024;

/// "(key length + value length) / 32, rounded up", of the sum of both lengths.
pub fn need(bytes: usize) -> usize {
    bytes.div_ceil(CELL)
}

/// Which of the P cells are held by an entry.
pub(crate) struct CellMap {
    taken: [bool; MOST_CELLS],
    cells: usize,
}

impl CellMap {
    /// A pool of that many cells, all free.
    pub fn new(cells: usize) -> CellMap {
        CellMap { taken: [false; MOST_CELLS], cells }
    }

    /// Marks the run as held by an entry. False as soon as one of its cells is held already.
    pub fn take(&mut self, run: Range<usize>) -> bool {
        for taken in &mut self.taken[run] {
            if *taken {
                return false;
            }
            *taken = true;
        }
        true
    }

    /// Marks the run as held by no entry.
    pub fn release(&mut self, run: Range<usize>) {
        self.taken[run].fill(false);
    }

    /// "the lowest start from which all the needed cells are free": the first run of free cells that gets as long as
    /// the need, counted cell by cell.
    pub fn first_fit(&self, need: usize) -> Option<usize> {
        let mut run = 0;
        for cell in 0..self.cells {
            run = if self.taken[cell] { 0 } else { run + 1 };
            if run == need {
                return Some(cell + 1 - need);
            }
        }
        None
    }
}
