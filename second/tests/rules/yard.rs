//! A memory for the tests, hand-made entries, and the calls on it.

use second::{kind, Answer};

/// Both buffers of a memory.
#[derive(Clone, Debug, PartialEq, Eq)]
pub struct Yard {
    pub dir: Vec<u64>,
    pub pool: Vec<u8>,
}

/// An entry written by hand.
#[derive(Clone, Debug)]
pub struct Hand {
    pub key: Vec<u8>,
    pub kind: u8,
    pub value: Vec<u8>,
    pub start: usize,
    pub expiry: u64,
    pub flags: u32,
}

/// A hand-made number that never expires.
pub fn number(key: &str, start: usize, weight: i64) -> Hand {
    hand(key, start, kind::NUMBER, &weight.to_le_bytes())
}

/// A hand-made text that never expires.
pub fn text(key: &str, start: usize, bytes: &str) -> Hand {
    hand(key, start, kind::TEXT, bytes.as_bytes())
}

/// A hand-made boolean that never expires.
pub fn boolean(key: &str, start: usize, value: u8) -> Hand {
    hand(key, start, kind::BOOLEAN, &[value])
}

fn hand(key: &str, start: usize, kind: u8, value: &[u8]) -> Hand {
    Hand { key: key.as_bytes().to_vec(), kind, value: value.to_vec(), start, expiry: 0, flags: 0 }
}

impl Hand {
    pub fn expiry(self, expiry: u64) -> Hand {
        Hand { expiry, ..self }
    }

    pub fn flags(self, flags: u32) -> Hand {
        Hand { flags, ..self }
    }

    pub fn record(&self) -> [u64; 6] {
        [
            self.expiry,
            u64::from(self.kind),
            u64::from(self.flags),
            self.start as u64,
            self.key.len() as u64,
            self.value.len() as u64,
        ]
    }
}

/// The value arguments of a store.
#[derive(Clone, Copy)]
pub struct Value<'a> {
    pub kind: u8,
    pub number: i64,
    pub text: &'a [u8],
    pub lifetime: u64,
    pub flags: u32,
}

pub const NIL: Value = Value { kind: kind::NIL, number: 0, text: b"", lifetime: 0, flags: 0 };

/// A number that never expires.
pub const fn weight<'a>(number: i64) -> Value<'a> {
    Value { kind: kind::NUMBER, number, text: b"", lifetime: 0, flags: 0 }
}

/// A text that never expires.
pub const fn words(text: &[u8]) -> Value<'_> {
    Value { kind: kind::TEXT, number: 0, text, lifetime: 0, flags: 0 }
}

/// A boolean that never expires.
pub const fn yes_no<'a>(number: i64) -> Value<'a> {
    Value { kind: kind::BOOLEAN, number, text: b"", lifetime: 0, flags: 0 }
}

impl Value<'_> {
    pub fn lifetime(self, lifetime: u64) -> Self {
        Value { lifetime, ..self }
    }

    pub fn flags(self, flags: u32) -> Self {
        Value { flags, ..self }
    }
}

/// The answer "done" with nothing to report.
pub const DONE: Answer = Answer {
    outcome: 0,
    rounds: 0,
    removed: 0,
    forced: false,
    stale: false,
    kind: 0,
    flags: 0,
    number: 0,
    count: 0,
    offset: 0,
    length: 0,
};

/// A refusal that reports removals of the sweep only.
pub fn refused(outcome: u8, removed: u64) -> Answer {
    Answer { outcome, removed, ..DONE }
}

/// What a store answers when it is done; if rounds were run, they took a live entry.
pub fn stored(rounds: u64, removed: u64) -> Answer {
    Answer { rounds, removed, forced: rounds > 0, ..DONE }
}

impl Yard {
    /// Buffers of the right lengths for that many cells, full of bytes and words that are not zero.
    pub fn wild(cells: usize) -> Yard {
        let pool = (0..32 * cells).map(|at| 0xA0 | (at % 13) as u8).collect();
        Yard { dir: vec![0xDEAD; 2 + 6 * cells], pool }
    }

    pub fn fresh(cells: usize) -> Yard {
        let mut yard = Yard::wild(cells);
        assert_eq!(second::make_fresh(&mut yard.dir, &mut yard.pool), DONE);
        yard
    }

    /// A memory with these entries, most recently used first. The other bytes of its pool are not zero: "old memories
    /// still load".
    pub fn with(cells: usize, entries: &[Hand]) -> Yard {
        let mut yard = Yard { pool: Yard::wild(cells).pool, ..Yard::fresh(cells) };
        yard.dir[1] = entries.len() as u64;
        for (slot, entry) in entries.iter().enumerate() {
            yard.dir[2 + 6 * slot..8 + 6 * slot].copy_from_slice(&entry.record());
            let offset = 32 * entry.start;
            let value = offset + entry.key.len();
            yard.pool[offset..value].copy_from_slice(&entry.key);
            yard.pool[value..value + entry.value.len()].copy_from_slice(&entry.value);
        }
        yard
    }

    /// "full yard" of 01: "a, b, c, d with one cell each at 0, 1, 2, 3, never expiring, a longest unused".
    pub fn full() -> Yard {
        Yard::with(4, &[number("d", 3, 4), number("c", 2, 3), number("b", 1, 2), number("a", 0, 1)])
    }

    /// The pool with these cells wiped.
    pub fn pool_without(&self, cells: impl IntoIterator<Item = usize>) -> Vec<u8> {
        let mut pool = self.pool.clone();
        for cell in cells {
            pool[32 * cell..32 * (cell + 1)].fill(0);
        }
        pool
    }

    pub fn count(&self) -> usize {
        self.dir[1] as usize
    }

    pub fn record(&self, slot: usize) -> [u64; 6] {
        self.dir[2 + 6 * slot..8 + 6 * slot].try_into().unwrap()
    }

    pub fn key(&self, slot: usize) -> &[u8] {
        let [_, _, _, start, length, _] = self.record(slot);
        &self.pool[32 * start as usize..][..length as usize]
    }

    pub fn value(&self, slot: usize) -> &[u8] {
        let [_, _, _, start, key, length] = self.record(slot);
        &self.pool[32 * start as usize + key as usize..][..length as usize]
    }

    /// The keys, most recently used first, parted by blanks.
    pub fn order(&self) -> String {
        let keys: Vec<_> = (0..self.count()).map(|slot| String::from_utf8_lossy(self.key(slot))).collect();
        keys.join(" ")
    }

    pub fn audit(&self) -> bool {
        second::audit(&self.dir, &self.pool)
    }

    pub fn get(&mut self, clock: u64, key: &str) -> Answer {
        second::get(&mut self.dir, &mut self.pool, clock, key.as_bytes())
    }

    pub fn get_stale(&self, clock: u64, key: &str) -> Answer {
        second::get_stale(&self.dir, &self.pool, clock, key.as_bytes())
    }

    pub fn ttl(&self, clock: u64, key: &str) -> Answer {
        second::ttl(&self.dir, &self.pool, clock, key.as_bytes())
    }

    pub fn show<'a>(&'a self, clock: u64, key: &str, notice: &'a str) -> &'a [u8] {
        second::show(&self.dir, &self.pool, clock, key.as_bytes(), notice.as_bytes())
    }

    pub fn get_keys(&self, clock: u64, maximum: u64, rows: &mut [u64]) -> Answer {
        second::get_keys(&self.dir, &self.pool, clock, maximum, rows)
    }

    pub fn delete(&mut self, clock: u64, key: &str) -> Answer {
        second::delete(&mut self.dir, &mut self.pool, clock, key.as_bytes())
    }

    pub fn expire(&mut self, clock: u64, key: &str, lifetime: u64) -> Answer {
        second::expire(&mut self.dir, &self.pool, clock, key.as_bytes(), lifetime)
    }

    pub fn incr(&mut self, clock: u64, key: &str, step: i64, initial: Option<(i64, u64)>) -> Answer {
        second::incr(&mut self.dir, &mut self.pool, clock, key.as_bytes(), step, initial)
    }

    pub fn flush_all(&mut self) -> Answer {
        second::flush_all(&mut self.dir, &self.pool)
    }

    pub fn flush_expired(&mut self, clock: u64, maximum: u64) -> Answer {
        second::flush_expired(&mut self.dir, &mut self.pool, clock, maximum)
    }

    pub fn set(&mut self, clock: u64, key: &str, value: Value) -> Answer {
        self.store(second::set, clock, key.as_bytes(), value)
    }

    pub fn safe_set(&mut self, clock: u64, key: &str, value: Value) -> Answer {
        self.store(second::safe_set, clock, key.as_bytes(), value)
    }

    pub fn add(&mut self, clock: u64, key: &str, value: Value) -> Answer {
        self.store(second::add, clock, key.as_bytes(), value)
    }

    pub fn safe_add(&mut self, clock: u64, key: &str, value: Value) -> Answer {
        self.store(second::safe_add, clock, key.as_bytes(), value)
    }

    pub fn replace(&mut self, clock: u64, key: &str, value: Value) -> Answer {
        self.store(second::replace, clock, key.as_bytes(), value)
    }

    pub fn store(&mut self, form: Form, clock: u64, key: &[u8], value: Value) -> Answer {
        let Value { kind, number, text, lifetime, flags } = value;
        form(&mut self.dir, &mut self.pool, clock, key, kind, number, text, lifetime, flags)
    }
}

/// Any of the five stores.
pub type Form = fn(&mut [u64], &mut [u8], u64, &[u8], u8, i64, &[u8], u64, u32) -> Answer;

/// All five stores, and whether each is a safe form.
pub const FORMS: [(Form, bool); 5] = [
    (second::set, false),
    (second::safe_set, true),
    (second::add, false),
    (second::safe_add, true),
    (second::replace, false),
];

/// Numbers that look random and are the same in every run.
pub struct Dice(u64);

impl Dice {
    pub fn new(seed: u64) -> Dice {
        Dice(seed)
    }

    pub fn word(&mut self) -> u64 {
        self.0 = self.0.wrapping_add(0x9E37_79B9_7F4A_7C15);
        let mut mixed = self.0;
        mixed = (mixed ^ (mixed >> 30)).wrapping_mul(0xBF58_476D_1CE4_E5B9);
        mixed = (mixed ^ (mixed >> 27)).wrapping_mul(0x94D0_49BB_1331_11EB);
        mixed ^ (mixed >> 31)
    }

    /// A number below the bound.
    pub fn below(&mut self, bound: usize) -> usize {
        (self.word() % bound as u64) as usize
    }

    pub fn one_in(&mut self, chances: usize) -> bool {
        self.below(chances) == 0
    }

    pub fn pick<Item: Copy>(&mut self, items: &[Item]) -> Item {
        items[self.below(items.len())]
    }
}
