//! The two buffers of a memory, of any lengths and contents; and the records of a directory, as words.

/// Bytes of a cell.
pub const CELL: usize = 32;
/// The most cells of a pool.
pub const MOST_CELLS: usize = 1024;
/// Words before the first record.
pub const HEAD: usize = 2;
/// Words of a record: expiry, kind, flags, start cell, key length, value length.
pub const RECORD: usize = 6;

/// The directory and the pool, as handed to a call.
#[derive(Clone, Debug, Default, PartialEq, Eq)]
pub struct Memory {
    /// The words.
    pub dir: Vec<u64>,
    /// The bytes.
    pub pool: Vec<u8>,
}

impl Memory {
    /// Buffers of the right lengths for so many cells, all zero (not yet a sound memory).
    pub fn blank(cells: usize) -> Memory {
        Memory { dir: vec![0; HEAD + RECORD * cells], pool: vec![0; CELL * cells] }
    }

    /// An empty memory of so many cells.
    pub fn fresh(cells: usize) -> Memory {
        let mut memory = Memory::blank(cells);
        memory.dir[0] = 1;
        memory
    }

    /// How many whole cells the pool has.
    pub fn cells(&self) -> usize {
        self.pool.len() / CELL
    }

    /// How many records the directory says it has, as far as it has room for them.
    pub fn count(&self) -> usize {
        let room = self.dir.len().saturating_sub(HEAD) / RECORD;
        let said = self.dir.get(1).map_or(0, |&word| usize::try_from(word).unwrap_or(usize::MAX));
        said.min(room)
    }

    /// The six words of the record at a slot.
    pub fn record(&self, slot: usize) -> &[u64] {
        &self.dir[HEAD + RECORD * slot..HEAD + RECORD * (slot + 1)]
    }

    /// The same, to be changed.
    pub fn record_mut(&mut self, slot: usize) -> &mut [u64] {
        &mut self.dir[HEAD + RECORD * slot..HEAD + RECORD * (slot + 1)]
    }

    /// The first byte of a sound memory's pool that is in no key and no value and is not zero.
    pub fn left_over(&self) -> Option<usize> {
        let mut pool = self.pool.clone();
        for slot in 0..self.count() {
            let [start, key, value] = [3, 4, 5].map(|word| self.record(slot)[word] as usize);
            pool[CELL * start..][..key + value].fill(0);
        }
        pool.iter().position(|&byte| byte != 0)
    }

    /// Takes over the contents of another memory, without making new buffers where the old ones have room.
    pub fn copy(&mut self, other: &Memory) {
        self.dir.clone_from(&other.dir);
        self.pool.clone_from(&other.pool);
    }
}

#[cfg(test)]
mod tests {
    use super::*;

    #[test]
    fn a_byte_of_no_entry_is_found() {
        let mut memory = Memory::fresh(2);
        memory.dir[1] = 1;
        memory.record_mut(0).copy_from_slice(&[0, 4, 0, 0, 1, 2]);
        memory.pool[..3].copy_from_slice(b"a42");
        assert_eq!(memory.left_over(), None);
        for at in [3, 31, 32, 63] {
            let mut left = memory.clone();
            left.pool[at] = 1;
            assert_eq!(left.left_over(), Some(at));
        }
    }
}
