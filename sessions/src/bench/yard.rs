//! The memories that calls are timed on: plates of one cell each, in the order of their cells unless shuffled.

use crate::memory::Memory;
use crate::random::Random;

/// The clock of the timed calls. Plates that die have died by then.
pub const CLOCK: u64 = 1000;
/// A lifetime that has ended by then.
const SHORT: u64 = 10;

/// The key of a plate; all have the same length.
pub fn plate(number: usize) -> Vec<u8> {
    format!("plate-{number:04}").into_bytes()
}

/// A key that no plate has, of the same length.
pub fn absent() -> Vec<u8> {
    b"plate-none".to_vec()
}

/// So many plates with a weight each, in a pool of so many cells. Plate 0 is the longest unused.
pub fn weights(cells: usize, plates: usize) -> Memory {
    filled(cells, 0..plates, 3, |_| 0)
}

/// The same with texts of eight bytes.
pub fn texts(cells: usize, plates: usize) -> Memory {
    filled(cells, 0..plates, 4, |_| 0)
}

/// A full pool of weights, those dead whose number the test names.
pub fn dying(cells: usize, is_dead: impl Fn(usize) -> bool) -> Memory {
    filled(cells, 0..cells, 3, |number| if is_dead(number) { SHORT } else { 0 })
}

/// A full pool whose plates were last used in any order, so that cells side by side become free late.
pub fn crowd(cells: usize) -> Memory {
    let mut memory = weights(cells, cells);
    let mut order: Vec<usize> = (0..cells).collect();
    Random::new(1).shuffle(&mut order);
    for number in order {
        second::get(&mut memory.dir, &mut memory.pool, CLOCK, &plate(number));
    }
    memory
}

fn filled(cells: usize, plates: impl Iterator<Item = usize>, kind: u8, lifetime: impl Fn(usize) -> u64) -> Memory {
    let mut memory = Memory::fresh(cells);
    for number in plates {
        let (key, weight) = (plate(number), 14_200 + number as i64);
        let set =
            second::set(&mut memory.dir, &mut memory.pool, 1, &key, kind, weight, b"14200 kg", lifetime(number), 7);
        assert_eq!((set.outcome, set.rounds), (0, 0), "every plate has room");
    }
    memory
}
