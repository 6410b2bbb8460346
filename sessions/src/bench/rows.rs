//! The timed calls: each with the memory it is made on and what it has to answer.

use crate::bench::yard::{absent, crowd, dying, plate, texts, weights, CLOCK};
use crate::call::{Args, Call, Name};
use crate::memory::{Memory, CELL};

/// The sizes of the pool.
pub const SIZES: [usize; 3] = [4, 64, 1024];

/// A timed call.
pub struct Row {
    pub cells: usize,
    pub memory: Memory,
    /// The memory in words.
    pub state: &'static str,
    pub call: Call,
    /// What the call meets, in words.
    pub case: &'static str,
    /// The outcome and the rounds that it has to answer; of a call without an answer nothing.
    pub answer: Option<(u64, u64)>,
}

impl Row {
    /// The call and what it meets, in words.
    pub fn label(&self) -> String {
        let (name, case) = (self.call.name.text(), self.case);
        if case.is_empty() {
            name.to_string()
        } else {
            format!("{name}: {case}")
        }
    }
}

/// All rows of a size, a call's rows together.
pub fn rows(cells: usize) -> Vec<Row> {
    let mut rows = Rows { cells, rows: Vec::new() };
    rows.soundness();
    rows.reading();
    rows.storing();
    rows.evicting();
    rows.other_stores();
    rows.counting();
    rows.upkeep();
    rows.whole();
    rows.rows
}

/// The rows of a size, as far as they are written down.
struct Rows {
    cells: usize,
    rows: Vec<Row>,
}

/// A key with the clock.
fn asked(key: Vec<u8>) -> Args {
    Args { clock: CLOCK, key, ..Args::default() }
}

/// A weight, which fits the plates' own value in length.
fn weight(key: Vec<u8>) -> Args {
    Args { kind: 3, number: 15_000, ..asked(key) }
}

/// A text that needs so many cells with a plate's key.
fn text(key: Vec<u8>, cells: usize) -> Args {
    let length = CELL * cells - key.len();
    Args { kind: 4, text: vec![b'x'; length], ..asked(key) }
}

impl Rows {
    fn add(
        &mut self, name: Name, case: &'static str, state: &'static str, memory: &Memory, args: Args, answer: (u64, u64),
    ) {
        let call = Call { name, args };
        self.rows.push(Row { cells: self.cells, memory: memory.clone(), state, call, case, answer: Some(answer) });
    }

    /// The three fillings of the pool.
    fn fillings(&self) -> [(&'static str, Memory); 3] {
        let cells = self.cells;
        [("empty", Memory::fresh(cells)), ("half", weights(cells, cells / 2)), ("full", weights(cells, cells))]
    }

    fn half(&self) -> Memory {
        weights(self.cells, self.cells / 2)
    }

    fn full(&self) -> Memory {
        weights(self.cells, self.cells)
    }

    /// The plates at the front, in the middle and last in the use order of a full pool.
    fn places(&self) -> [(&'static str, Vec<u8>); 3] {
        let cells = self.cells;
        [("front", plate(cells - 1)), ("middle", plate(cells / 2)), ("last", plate(0))]
    }

    /// A clock of 0 is refused right behind the soundness test: that test alone.
    fn soundness(&mut self) {
        for (state, memory) in self.fillings() {
            let args = Args { clock: 0, ..asked(absent()) };
            self.add(Name::GetStale, "soundness test alone", state, &memory, args, (2, 0));
        }
    }

    fn reading(&mut self) {
        let full = self.full();
        for name in [Name::Get, Name::GetStale, Name::Ttl] {
            for (state, memory) in self.fillings() {
                self.add(name, "miss", state, &memory, asked(absent()), (8, 0));
            }
            for (place, key) in self.places() {
                self.add(name, place, "full", &full, asked(key), (0, 0));
            }
        }
        let swept = dying(self.cells, |number| number < 2);
        self.add(Name::Get, "front, sweep of 2", "full", &swept, asked(plate(self.cells - 1)), (0, 0));
        let texts = texts(self.cells, self.cells);
        for (place, key) in self.places() {
            self.add_whole(Name::Show, place, "full", &texts, asked(key));
        }
        self.add_whole(Name::Show, "miss", "full", &texts, asked(absent()));
    }

    /// set where no round is run.
    fn storing(&mut self) {
        let full = self.full();
        for (place, key) in self.places() {
            self.add(Name::Set, place_of(place), "full", &full, weight(key), (0, 0));
        }
        self.add(Name::Set, "other length, middle", "full", &full, text(plate(self.cells / 2), 1), (0, 0));
        self.add(Name::Set, "new, room", "empty", &Memory::fresh(self.cells), weight(absent()), (0, 0));
        self.add(Name::Set, "new, room", "half", &self.half(), weight(absent()), (0, 0));
    }

    /// set where rounds are run: in the order of the cells each of them frees one more.
    fn evicting(&mut self) {
        let full = self.full();
        self.add(Name::Set, "new, 1 round", "full", &full, weight(absent()), (0, 1));
        self.add(Name::Set, "new, 3 rounds", "full", &full, text(absent(), 3), (0, 3));
        if self.cells > 30 {
            self.add(Name::Set, "new, 30 rounds", "full", &full, text(absent(), 30), (0, 30));
            self.add(Name::Set, "12, 30 rounds too few", "full", &full, text(absent(), 31), (12, 0));
            self.crowded();
        } else {
            self.add(Name::Set, "12, all rounds too few", "full", &full, text(absent(), self.cells + 1), (12, 0));
        }
    }

    /// set of two cells where the plates were last used in any order.
    fn crowded(&mut self) {
        let (crowd, args) = (crowd(self.cells), text(absent(), 2));
        let mut after = crowd.clone();
        let set = second::set(&mut after.dir, &mut after.pool, CLOCK, &args.key, args.kind, 0, &args.text, 0, 0);
        self.add(Name::Set, "new, 2 cells in a crowd", "full", &crowd, args, (0, set.rounds));
    }

    fn other_stores(&mut self) {
        let (half, full) = (self.half(), self.full());
        let middle = || plate(self.cells / 2);
        let list = [
            (Name::SafeSet, "in place, middle", "full", &full, weight(middle()), (0, 0)),
            (Name::SafeSet, "new, room", "half", &half, weight(absent()), (0, 0)),
            (Name::SafeSet, "12", "full", &full, weight(absent()), (12, 0)),
            (Name::Add, "new, room", "half", &half, weight(absent()), (0, 0)),
            (Name::Add, "new, 1 round", "full", &full, weight(absent()), (0, 1)),
            (Name::Add, "exists, middle", "full", &full, weight(middle()), (9, 0)),
            (Name::SafeAdd, "new, room", "half", &half, weight(absent()), (0, 0)),
            (Name::SafeAdd, "12", "full", &full, weight(absent()), (12, 0)),
            (Name::Replace, "in place, middle", "full", &full, weight(middle()), (0, 0)),
            (Name::Replace, "miss", "full", &full, weight(absent()), (8, 0)),
        ];
        for (name, case, state, memory, args, answer) in list {
            self.add(name, case, state, memory, args, answer);
        }
    }

    fn counting(&mut self) {
        let (half, full) = (self.half(), self.full());
        for (place, key) in self.places() {
            self.add(Name::Incr, place, "full", &full, Args { step: 20, ..asked(key) }, (0, 0));
        }
        let initial = Args { step: 20, has_initial: true, ..weight(absent()) };
        self.add(Name::Incr, "initial, room", "half", &half, initial.clone(), (0, 0));
        self.add(Name::Incr, "initial, 1 round", "full", &full, initial, (0, 1));
    }

    fn upkeep(&mut self) {
        let full = self.full();
        for (place, key) in self.places() {
            self.add(Name::Delete, place, "full", &full, asked(key), (0, 0));
        }
        self.add(Name::Delete, "miss", "full", &full, asked(absent()), (0, 0));
        for (place, key) in self.places() {
            self.add(Name::Expire, place, "full", &full, Args { lifetime: 500, ..asked(key) }, (0, 0));
        }
        self.add(Name::Expire, "miss", "full", &full, Args { lifetime: 500, ..asked(absent()) }, (8, 0));
    }

    /// The calls over the whole memory.
    fn whole(&mut self) {
        let args = Args { clock: CLOCK, table: vec![0; 3 * self.cells], ..Args::default() };
        let every = [("none dead", 0), ("every other dead", 2), ("all dead", 1)];
        for (case, step) in every {
            let memory = dying(self.cells, |number| step > 0 && number % step == 0);
            self.add(Name::FlushExpired, case, "full", &memory, args.clone(), (0, 0));
        }
        for (state, memory) in self.fillings() {
            self.add(Name::FlushAll, "", state, &memory, Args::default(), (0, 0));
        }
        for (state, memory) in self.fillings() {
            self.add(Name::GetKeys, "all", state, &memory, args.clone(), (0, 0));
        }
        for (state, memory) in self.fillings() {
            self.add_whole(Name::Audit, "yes", state, &memory, Args::default());
        }
        self.add(Name::MakeFresh, "", "full", &self.full(), Args::default(), (0, 0));
    }

    fn add_whole(&mut self, name: Name, case: &'static str, state: &'static str, memory: &Memory, args: Args) {
        self.add(name, case, state, memory, args, (0, 0));
        if let Some(row) = self.rows.last_mut() {
            row.answer = None;
        }
    }
}

fn place_of(place: &str) -> &'static str {
    match place {
        "front" => "in place, front",
        "middle" => "in place, middle",
        _ => "in place, last",
    }
}
