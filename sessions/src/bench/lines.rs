//! The lines that replay is timed on: the pool is filled with plates, and then plates come and go in a fixed order.

use std::io::Write;

use reefcandor::ffi;

use crate::bench::yard::{plate, CLOCK};
use crate::call::{Name, Words};
use crate::memory::Memory;
use crate::random::Random;

/// The first line of the output.
const HEADER: &str = "call\tanswer\tkind\tvalue\tflags\trounds\tremoved";
/// The kind of a number: all values are weights.
const NUMBER: u8 = 3;
/// A lifetime without end, so that the pool stays full.
const FOR_EVER: u64 = 0;
const FLAGS: u32 = 7;
/// So many plates have keys of ten bytes.
const PLATES: usize = 10_000;

/// What comes next. The pool is full before and after each.
#[derive(Clone, Copy)]
enum Step {
    /// A get of a plate that is there.
    Hit,
    /// A get of a plate that is not there.
    Miss,
    /// A set of a plate that is there.
    InPlace,
    /// A set of a plate that is not there: the longest unused one leaves in one round.
    Evict,
    /// A delete of a plate that is there, and a set of one that is not, in its cell.
    Exchange,
}

/// How often each comes, in a hundred; docs/BENCHMARKS.md says so too.
const MIX: [(usize, Step); 5] =
    [(70, Step::Hit), (10, Step::Miss), (10, Step::InPlace), (5, Step::Evict), (5, Step::Exchange)];

/// The call of a line with its arguments, ready to be made.
struct Line {
    name: Name,
    clock: u64,
    key: [u8; 10],
    /// What a set stores.
    weight: i64,
}

/// A `fresh` and the lines behind it.
pub struct Lines {
    cells: usize,
    lines: Vec<Line>,
}

impl Lines {
    /// Fills a pool of so many cells and goes on, so many lines in all.
    pub fn new(cells: usize, count: usize) -> Lines {
        let mut yard = Yard { random: Random::new(1), used: Vec::new(), next: 0, lines: Vec::new() };
        for _ in 0..cells {
            yard.set_new();
        }
        while yard.lines.len() < count {
            yard.step();
        }
        // the fresh counts too
        yard.lines.truncate(count - 1);
        Lines { cells, lines: yard.lines }
    }

    /// How many there are.
    pub fn count(&self) -> usize {
        1 + self.lines.len()
    }

    /// The input of replay.
    pub fn input(&self) -> Vec<u8> {
        let mut text = format!("fresh\t{}\n", self.cells).into_bytes();
        for Line { name, clock, key, weight } in &self.lines {
            write!(text, "{clock}\t{}\t", name.text()).expect("a vector takes everything");
            text.extend(key);
            if *name == Name::Set {
                write!(text, "\t{NUMBER}\t{weight}\t{FOR_EVER}\t{FLAGS}").expect("a vector takes everything");
            }
            text.push(b'\n');
        }
        text
    }

    /// Makes the calls through the C interface, and hands out each answer.
    pub fn call(&self, memory: &mut Memory, mut answered: impl FnMut(&Words)) {
        let (d, dn, p, pn) = (memory.dir.as_mut_ptr(), memory.dir.len(), memory.pool.as_mut_ptr(), memory.pool.len());
        let (t, tn) = ([].as_ptr(), 0);
        let mut answer = [0; 10];
        // all pointers come from buffers with their own lengths, and no two of them overlap
        unsafe { ffi::reefcandor_make_fresh(d, dn, p, pn, &mut answer) };
        answered(&answer);
        for Line { name, clock, key, weight } in &self.lines {
            let (clock, k, kn, a) = (*clock, key.as_ptr(), key.len(), &mut answer);
            unsafe {
                match name {
                    Name::Get => ffi::reefcandor_get(d, dn, p, pn, clock, k, kn, a),
                    Name::Delete => ffi::reefcandor_delete(d, dn, p, pn, clock, k, kn, a),
                    _ => ffi::reefcandor_set(d, dn, p, pn, clock, k, kn, NUMBER, *weight, t, tn, FOR_EVER, FLAGS, a),
                }
            }
            answered(&answer);
        }
    }

    /// The output that the answers of these calls come to.
    pub fn output(&self) -> Vec<u8> {
        let mut text = format!("{HEADER}\n").into_bytes();
        let mut call = 0;
        self.call(&mut Memory::blank(self.cells), |answer| {
            let [outcome, rounds, removed, _, _, kind, flags, number, ..] = *answer;
            let value = if kind == u64::from(NUMBER) { (number as i64).to_string() } else { String::from("-") };
            call += 1;
            writeln!(text, "{call}\t{outcome}\t{kind}\t{value}\t{flags}\t{rounds}\t{removed}")
                .expect("a vector takes everything");
        });
        text
    }
}

/// The lines so far, and the plates that are there after them.
struct Yard {
    random: Random,
    /// The longest unused first.
    used: Vec<usize>,
    /// The plate that is tried next where one is asked for that is not there.
    next: usize,
    lines: Vec<Line>,
}

impl Yard {
    fn step(&mut self) {
        match self.random.weighted(&MIX) {
            Step::Hit => self.touch(Name::Get),
            Step::Miss => {
                let number = self.absent();
                self.add(Name::Get, number);
            }
            Step::InPlace => self.touch(Name::Set),
            Step::Evict => {
                self.set_new();
                self.used.remove(0);
            }
            Step::Exchange => {
                let number = self.take();
                self.add(Name::Delete, number);
                self.set_new();
            }
        }
    }

    fn add(&mut self, name: Name, number: usize) {
        let key = plate(number).try_into().expect("a plate has ten bytes");
        let clock = CLOCK + self.lines.len() as u64;
        let weight = self.random.between(1_000, 44_000) as i64;
        self.lines.push(Line { name, clock, key, weight });
    }

    /// A call on any plate that is there.
    fn touch(&mut self, name: Name) {
        let number = self.take();
        self.used.push(number);
        self.add(name, number);
    }

    fn set_new(&mut self) {
        let number = self.absent();
        self.used.push(number);
        self.add(Name::Set, number);
    }

    /// Any plate that is there, taken out of the use order.
    fn take(&mut self) -> usize {
        let place = self.random.below(self.used.len());
        self.used.remove(place)
    }

    /// A plate that is not there.
    fn absent(&mut self) -> usize {
        loop {
            let number = self.next;
            self.next = (number + 1) % PLATES;
            if !self.used.contains(&number) {
                return number;
            }
        }
    }
}

#[cfg(test)]
mod tests {
    use super::Lines;

    /// The lines behind the filling, by what they call, answer and run: a get with 0 and with 8, a set without a round
    /// and with one, a delete. The last number counts all others.
    fn counts(cells: usize, input: &str, output: &str) -> [usize; 6] {
        let mut counts = [0; 6];
        for (line, told) in input.lines().zip(output.lines().skip(1)).skip(1 + cells) {
            let told: Vec<&str> = told.split('\t').collect();
            let place = match (line.split('\t').nth(1).unwrap(), told[1], told[5]) {
                ("get", "0", "0") => 0,
                ("get", "8", "0") => 1,
                ("set", "0", "0") => 2,
                ("set", "0", "1") => 3,
                ("delete", "0", "0") => 4,
                _ => 5,
            };
            counts[place] += 1;
        }
        counts
    }

    #[test]
    fn the_mix_is_as_written() {
        for cells in [4, 64, 1024] {
            let lines = Lines::new(cells, cells + 42_000);
            let (input, output) = (lines.input(), lines.output());
            assert!(output == second::replay::replay(&input), "P = {cells}: both programs answer alike");
            let counts = counts(cells, str::from_utf8(&input).unwrap(), str::from_utf8(&output).unwrap());
            // of 100 steps five have two lines: these are 40,000 steps
            for (count, expected) in counts.into_iter().zip([28_000, 4_000, 6_000, 2_000, 2_000, 0]) {
                assert!(count.abs_diff(expected) <= expected / 20, "P = {cells}: {counts:?}");
            }
        }
    }

    #[test]
    fn as_many_lines_as_asked_for() {
        for count in 1_000..1_020 {
            let lines = Lines::new(4, count);
            assert_eq!(lines.count(), count);
            assert_eq!(lines.input().iter().filter(|&&byte| byte == b'\n').count(), lines.count());
        }
    }
}
