//! Demand 3, least loss, worked out from its own words (places and what they cost, never round by round) and compared
//! with the stores in random sessions.

use std::ops::Range;

use crate::yard::*;
use second::Answer;

const KEYS: [&str; 10] = ["a", "b", "c", "d", "e", "f", "g", "hh", "iii", "a rather long key of 39 bytes, it is so"];

/// The memory as a list of records, most recently used first, with key and value.
#[derive(Clone, Debug, PartialEq)]
struct Entry {
    record: [u64; 6],
    key: Vec<u8>,
    value: Vec<u8>,
}

impl Entry {
    fn dead(&self, clock: u64) -> bool {
        (1..=clock).contains(&self.record[0])
    }

    fn cells(&self) -> Range<usize> {
        let start = self.record[3] as usize;
        start..start + (self.key.len() + self.value.len()).div_ceil(32)
    }

    fn holds(&self, cell: usize) -> bool {
        self.cells().contains(&cell)
    }
}

fn entries(yard: &Yard) -> Vec<Entry> {
    let entry = |slot| Entry { record: yard.record(slot), key: yard.key(slot).into(), value: yard.value(slot).into() };
    (0..yard.count()).map(entry).collect()
}

/// The rounds of the line, which is longest unused first: how many entries each takes.
fn rounds_of(line: &[Entry], clock: u64) -> Vec<usize> {
    let mut rounds = vec![];
    let mut at = 0;
    while at < line.len() {
        let more = line[at + 1..].iter().take(2).take_while(|entry| entry.dead(clock)).count();
        rounds.push(1 + more);
        at += 1 + more;
    }
    rounds
}

/// "It costs the smallest number of rounds, from the first on (0 counts), so that each of its cells is free or held
/// within them."
fn cost(line: &[Entry], rounds: &[usize], start: usize, need: usize) -> usize {
    (0..=rounds.len())
        .find(|&taken| {
            let stays = &line[rounds[..taken].iter().sum::<usize>()..];
            (start..start + need).all(|cell| !stays.iter().any(|entry| entry.holds(cell)))
        })
        .unwrap()
}

/// A new entry, all but its start.
struct New<'a> {
    key: &'a [u8],
    value: &'a [u8],
    kind: u8,
    flags: u32,
    expiry: u64,
}

/// What a store that goes on must answer, the entries that it leaves, and those that it removes.
fn expected(cells: usize, before: &[Entry], clock: u64, new: &New, safe: bool) -> (Answer, Vec<Entry>, Vec<Entry>) {
    let mut line: Vec<Entry> = before.iter().rev().cloned().collect();
    let swept = line.iter().take(2).take_while(|entry| entry.dead(clock)).count();
    let mut gone: Vec<Entry> = line.drain(..swept).collect();
    let entry = |start| Entry {
        record: [
            new.expiry,
            new.kind.into(),
            new.flags.into(),
            start as u64,
            new.key.len() as u64,
            new.value.len() as u64,
        ],
        key: new.key.into(),
        value: new.value.into(),
    };
    // `removed` entries leave at the long-unused end; the new one, if it is stored, is the most recently used
    let finish = |rounds: usize, removed: usize, new: Option<Entry>, mut line: Vec<Entry>, mut gone: Vec<Entry>| {
        let taken: Vec<Entry> = line.drain(..removed).collect();
        let answer = Answer {
            outcome: if new.is_some() { 0 } else { 12 },
            rounds: rounds as u64,
            removed: (swept + removed) as u64,
            forced: new.is_some() && taken.iter().any(|entry| !entry.dead(clock)),
            ..DONE
        };
        line.extend(new);
        gone.extend(taken);
        (answer, line.into_iter().rev().collect(), gone)
    };
    if let Some(own) = line.iter().rposition(|entry| entry.key == new.key) {
        let old = line.remove(own);
        if old.value.len() == new.value.len() {
            return finish(0, 0, Some(entry(old.record[3] as usize)), line, gone);
        }
        gone.push(old);
    }
    let rounds = rounds_of(&line, clock);
    let need = (new.key.len() + new.value.len()).div_ceil(32);
    let places = 0..(cells + 1).saturating_sub(need);
    let limit = if safe { 0 } else { 30 };
    let best = places.map(|start| (cost(&line, &rounds, start, need), start)).min();
    match best {
        Some((cost, start)) if cost <= limit => {
            finish(cost, rounds[..cost].iter().sum(), Some(entry(start)), line, gone)
        }
        _ => finish(0, 0, None, line, gone),
    }
}

/// The pool afterwards: the cells of the entries that left are zero, and then key and value of a stored entry are written.
fn assert_pool(before: &Yard, gone: &[Entry], after: &Yard, stored: bool) {
    let mut pool = before.pool_without(gone.iter().flat_map(Entry::cells));
    if stored {
        let [_, _, _, start, key, value] = after.record(0).map(|word| word as usize);
        let bytes = 32 * start..32 * start + key + value;
        pool[bytes.clone()].copy_from_slice(&after.pool[bytes]);
    }
    assert_eq!(after.pool, pool);
}

/// A random value.
fn random_value<'a>(dice: &mut Dice, text: &'a [u8]) -> Value<'a> {
    Value {
        kind: dice.pick(&[1, 3, 4, 4]),
        number: dice.word() as i64,
        text,
        lifetime: dice.pick(&[0, 3, 20]),
        flags: dice.word() as u32,
    }
}

/// The bytes that a value is stored as.
fn bytes_of(value: &Value) -> Vec<u8> {
    match value.kind {
        1 => vec![u8::from(value.number != 0)],
        3 => value.number.to_le_bytes().to_vec(),
        _ => value.text.to_vec(),
    }
}

/// Whether the key's own entry is there after the sweep and live.
fn is_live_after_sweep(line: &[Entry], clock: u64, key: &[u8]) -> bool {
    let swept = line.iter().rev().take(2).take_while(|entry| entry.dead(clock)).count();
    let own = line[..line.len() - swept].iter().find(|entry| entry.key == key);
    own.is_some_and(|entry| !entry.dead(clock))
}

/// One random store that goes on, or an incr that stores its initial number, compared with demand 3.
fn try_store(yard: &mut Yard, dice: &mut Dice, clock: u64, key: &[u8], most_bytes: usize) {
    let before = yard.clone();
    let line = entries(&before);
    let live = is_live_after_sweep(&line, clock, key);
    let text = vec![dice.word() as u8; dice.below(most_bytes)];
    let mut value = random_value(dice, &text);
    let incr = !live && dice.one_in(5);
    if incr {
        value = Value { kind: 3, flags: 0, ..value };
    }
    let [set, safe_set, add, safe_add, replace] = FORMS;
    let forms = if live { [set, set, safe_set, replace] } else { [set, safe_set, add, safe_add] };
    let (form, safe) = if incr { set } else { dice.pick(&forms) };

    let bytes = bytes_of(&value);
    let expiry = if value.lifetime == 0 { 0 } else { clock + value.lifetime };
    let new = New { key, value: &bytes, kind: value.kind, flags: value.flags, expiry };
    let (mut answer, after, gone) = expected(yard.pool.len() / 32, &line, clock, &new, safe);
    if incr {
        if answer.outcome == 0 {
            answer = Answer { kind: 3, number: value.number, ..answer };
        }
        let initial = Some((value.number, value.lifetime));
        assert_eq!(second::incr(&mut yard.dir, &mut yard.pool, clock, key, 0, initial), answer);
    } else {
        assert_eq!(yard.store(form, clock, key, value), answer);
    }
    assert_eq!(entries(yard), after);
    assert!(yard.dir[2 + 6 * yard.count()..].iter().all(|&word| word == 0));
    assert!(answer.removed <= 92);
    assert_pool(&before, &gone, yard, answer.outcome == 0);
}

/// From a fresh memory on, every byte that belongs to no entry's key or value is zero.
fn assert_clean(yard: &Yard) {
    let mut pool = yard.pool.clone();
    for slot in 0..yard.count() {
        let [_, _, _, start, key, value] = yard.record(slot).map(|word| word as usize);
        pool[32 * start..][..key + value].fill(0);
    }
    assert!(pool.iter().all(|&byte| byte == 0));
}

fn session(seed: u64, cells: usize, calls: usize, most_bytes: usize) {
    let mut dice = Dice::new(seed);
    let mut yard = Yard::fresh(cells);
    let mut clock = 100;
    for call in 0..calls {
        clock = if dice.one_in(10) { 1 + dice.below(200) as u64 } else { clock + dice.below(3) as u64 };
        let key = match cells {
            0..=20 => dice.pick(&KEYS).to_string(),
            _ => format!("{}", dice.below(3 * cells)),
        };
        match dice.below(10) {
            0 => drop(yard.get(clock, &key)),
            1 => drop(yard.delete(clock, &key)),
            2 => drop(yard.expire(clock, &key, 5)),
            3 if call % 50 == 0 => drop(yard.flush_all()),
            _ => try_store(&mut yard, &mut dice, clock, key.as_bytes(), most_bytes),
        }
        assert!(yard.audit(), "equal keys or an unsound memory from a fresh one");
        assert_clean(&yard);
    }
}

#[test]
fn small_pools() {
    for seed in 0..40 {
        session(seed, 1 + seed as usize % 12, 1_000, 120);
    }
}

#[test]
fn more_than_thirty_rounds() {
    for seed in 0..4 {
        session(seed, 100, 1_500, if seed % 2 == 0 { 40 } else { 1600 });
    }
}

#[test]
fn hand_made_memories_with_equal_keys() {
    for seed in 0..3_000 {
        let mut dice = Dice::new(seed);
        let cells = 1 + dice.below(10);
        let mut made = vec![];
        let mut start = dice.below(2);
        while start < cells {
            let bytes = dice.below(60);
            let need = (1 + bytes).div_ceil(32);
            if start + need <= cells {
                let entry = text(dice.pick(&KEYS[..4]), start, &"x".repeat(bytes));
                made.push(entry.expiry(if dice.one_in(2) { 9 } else { 0 }));
            }
            start += need + dice.below(2);
        }
        for at in (1..made.len()).rev() {
            made.swap(at, dice.below(at + 1));
        }
        let mut yard = Yard::with(cells, &made);
        let key = dice.pick(&KEYS[..5]);
        try_store(&mut yard, &mut dice, 10, key.as_bytes(), 120);
    }
}
