//! The yards that the tests begin with.

use reefcandor::{Dict, Refusal, Refused, Row, Stored, Value};

/// A store that took nothing.
pub const PLAIN: Stored = Stored { rounds: 0, removed: 0, forced: false };

/// A refusal that tells nothing else.
pub const fn bare(refusal: Refusal) -> Refused {
    Refused { refusal, removed: 0 }
}

/// An empty yard of four cells.
pub fn fresh() -> Dict {
    Dict::new(4).expect("four cells")
}

/// a, b, c, d with one cell each at 0, 1, 2, 3; a is the longest unused. All but a have this lifetime.
pub fn full(lifetime: u64) -> Dict {
    let mut yard = fresh();
    for (number, key, lifetime) in [(1, b"a", 0), (2, b"b", lifetime), (3, b"c", lifetime), (4, b"d", lifetime)] {
        assert_eq!(yard.set(1000, key, Value::Number(number), lifetime, 0), Ok(PLAIN));
    }
    yard
}

/// A text that with a key of one byte needs so many cells.
pub fn text_for(cells: usize) -> Vec<u8> {
    vec![b'.'; reefcandor::CELL_BYTES * cells - 1]
}

/// The live keys at this clock, most recently used first, one after the other.
pub fn order(yard: &Dict, clock: u64) -> String {
    let mut table = [Row::default(); 4];
    let rows = yard.get_keys(clock, 0, &mut table).expect("a sound memory");
    rows.iter().map(|row| String::from_utf8_lossy(yard.key_of(row))).collect()
}
