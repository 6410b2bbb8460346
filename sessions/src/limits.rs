//! Calls that the vectors need whatever is drawn: a plain weighing, memories that are just sound or just not, thirty
//! rounds, the longest key.

use crate::call::{Args, Call, Name};
use crate::memory::{Memory, CELL, HEAD, MOST_CELLS, RECORD};

/// Cells of the pool in which more than thirty rounds can run.
const CROWD: usize = 33;
/// The longest key that passes check 4.
const LONGEST_KEY: usize = 65_535;

/// All of them, with the memory that each is made on.
pub fn vectors() -> Vec<(Memory, Call)> {
    let audit = || Call { name: Name::Audit, args: Args::default() };
    let mut vectors: Vec<(Memory, Call)> = edges().into_iter().map(|memory| (memory, audit())).collect();
    vectors.extend(lengths().into_iter().map(|memory| (memory, audit())));
    vectors.extend(weighings());
    vectors.extend(thirty_rounds());
    vectors.extend(longest_keys());
    vectors
}

/// P = 4: a text of two cells under c, a number under b, a boolean under a; most recent first, and one unused record.
fn yard() -> Memory {
    let mut memory = Memory::fresh(4);
    for (key, kind) in [(b"a", 1), (b"b", 3), (b"c", 4)] {
        second::set(&mut memory.dir, &mut memory.pool, 1, key, kind, 14_200, &[b'x'; 33], 0, 5);
    }
    memory
}

/// Words of that directory at, or just past, what soundness allows, with their places.
fn edge_words() -> [(usize, u64); 24] {
    let record = |slot: usize, word: usize| HEAD + RECORD * slot + word;
    [
        // the form and the count
        (0, 0),
        (0, 2),
        (1, 2),
        (1, 4),
        (1, 5),
        // kinds, which have to fit the value
        (record(0, 1), 0),
        (record(0, 1), 1),
        (record(0, 1), 2),
        (record(0, 1), 3),
        (record(0, 1), 5),
        // flags
        (record(0, 2), u64::from(u32::MAX)),
        (record(0, 2), 1 << 32),
        // starts: on the cell before, past the end, far past it; the number on the text's second cell
        (record(0, 3), 1),
        (record(0, 3), 3),
        (record(0, 3), u64::MAX),
        (record(1, 3), 3),
        // lengths: no key; up to the end, past it, a sum that wraps; a number of seven bytes, a boolean of two
        (record(0, 4), 0),
        (record(0, 5), 63),
        (record(0, 5), 64),
        (record(0, 5), u64::MAX),
        (record(1, 5), 7),
        (record(2, 5), 2),
        // the unused record
        (record(3, 0), 1),
        (record(3, 5), 1),
    ]
}

/// That memory with one of these words, or with another byte for its boolean.
fn edges() -> Vec<Memory> {
    let word = |(at, word): (usize, u64)| {
        let mut memory = yard();
        memory.dir[at] = word;
        memory
    };
    let boolean = |byte: u8| {
        let mut memory = yard();
        memory.pool[1] = byte;
        memory
    };
    edge_words().map(word).into_iter().chain([0, 1, 2].map(boolean)).collect()
}

/// Empty memories of no cell, of the most and of one more; and lengths that do not fit each other.
fn lengths() -> Vec<Memory> {
    let mut memories: Vec<Memory> = [0, MOST_CELLS, MOST_CELLS + 1].into_iter().map(Memory::fresh).collect();
    let mut longer_pool = Memory::fresh(1);
    longer_pool.pool.push(0);
    let mut longer_dir = Memory::fresh(1);
    longer_dir.dir.push(0);
    memories.extend([longer_pool, longer_dir]);
    memories
}

/// The weight under b, and 20 more.
fn weighings() -> Vec<(Memory, Call)> {
    let args = || Args { step: 20, ..asked(b"b".to_vec()) };
    [Name::Get, Name::Incr].into_iter().map(|name| (yard(), Call { name, args: args() })).collect()
}

/// Pools so crowded that thirty rounds run: a place after the last of them, or none.
fn thirty_rounds() -> Vec<(Memory, Call)> {
    let mut memory = Memory::fresh(CROWD);
    for cell in 0..CROWD {
        let (key, weight) = ([b'A' + cell as u8], cell as i64);
        second::set(&mut memory.dir, &mut memory.pool, 1, &key, 3, weight, &[], 0, 0);
    }
    let text = |cells: usize| Args { kind: 4, text: vec![b'x'; CELL * cells - 1], ..asked(vec![b'z']) };
    let long = |cells: usize| Args { has_initial: true, number: 5, step: 2, ..asked(vec![b'z'; CELL * cells - 8]) };
    let own = |cells: usize| Args { key: vec![b'A' + CROWD as u8 - 1], ..text(cells) };
    let calls = [
        (Name::Set, text(30)),
        (Name::Set, text(31)),
        (Name::Add, text(30)),
        (Name::Add, text(31)),
        (Name::Replace, own(30)),
        (Name::Replace, own(31)),
        (Name::Incr, long(30)),
        (Name::Incr, long(31)),
    ];
    calls.into_iter().map(|(name, args)| (memory.clone(), Call { name, args })).collect()
}

/// A key of 65,535 bytes passes check 4, and finds nothing and no place.
fn longest_keys() -> Vec<(Memory, Call)> {
    let key = || Args { kind: 3, ..asked(vec![b'k'; LONGEST_KEY]) };
    [Name::Get, Name::Set].into_iter().map(|name| (yard(), Call { name, args: key() })).collect()
}

fn asked(key: Vec<u8>) -> Args {
    Args { clock: 2, key, ..Args::default() }
}
