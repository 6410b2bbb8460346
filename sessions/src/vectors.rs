//! Vectors: small calls of the second program, all kinds and outcomes, with everything that they answer and leave.

use crate::arguments::number;
use crate::by_second;
use crate::call::{Args, Call, Name, Reply, NAMES};
use crate::corrupt;
use crate::limits;
use crate::memory::{Memory, CELL};
use crate::random::Random;

/// The seed of the vectors that stand in crates/vectors.
const SEED: u64 = 2;
/// Far more draws than it takes to meet every class of call.
const DRAWS: usize = 400_000;

/// A call with the memory before it, and all that the second program made of it.
pub struct Vector {
    pub before: Memory,
    pub call: Call,
    pub reply: Reply,
    pub after: Memory,
}

/// What a vector is an example of.
#[derive(PartialEq, Eq)]
struct Class {
    name: Name,
    /// The outcome; of calls without an answer yes or no.
    outcome: u64,
    features: [u64; 6],
}

/// The vectors, in the order of the calls.
pub fn vectors() -> Vec<Vector> {
    let mut random = Random::new(SEED);
    let mut classes: Vec<Class> = Vec::new();
    let mut vectors: Vec<Vector> = Vec::new();
    for _ in 0..DRAWS {
        let vector = draw(&mut random);
        let class = class(&vector);
        if is_wanted(&class, &classes) {
            classes.push(class);
            vectors.push(vector);
        }
    }
    vectors.extend(limits::vectors().into_iter().map(|(before, call)| made(before, call)));
    vectors.sort_by_key(|vector| vector.call.name as usize);
    assert_complete(&vectors);
    vectors
}

/// A vector is wanted if it has a feature that none of the same call and outcome has; or if those are few, and none of
/// them has all of its features. Refusals by the checks 1 to 7 have none.
fn is_wanted(class: &Class, classes: &[Class]) -> bool {
    let alike = || classes.iter().filter(|other| other.name == class.name && other.outcome == class.outcome);
    if alike().count() < enough(class.name, class.outcome) {
        return (1..=7).contains(&class.outcome) || !classes.contains(class);
    }
    (0..class.features.len()).any(|at| alike().all(|other| other.features[at] != class.features[at]))
}

/// How many vectors of a call have the outcome, at least.
fn enough(name: Name, outcome: u64) -> usize {
    let store = name.runs_rounds() || matches!(name, Name::SafeSet | Name::SafeAdd);
    match outcome {
        0 if store => 8,
        0 => 4,
        1 | 8..=12 => 2,
        _ => 1,
    }
}

fn assert_complete(vectors: &[Vector]) {
    for name in NAMES {
        for &outcome in name.outcomes() {
            let reached = vectors.iter().any(|vector| vector.call.name == name && outcome_of(&vector.reply) == outcome);
            assert!(reached, "no vector of {} with outcome {outcome}", name.text());
        }
    }
}

fn outcome_of(reply: &Reply) -> u64 {
    match reply {
        Reply::Answer(words) | Reply::Listing(words, _) => words[0],
        Reply::Place(place) => place[0],
        Reply::Part(part) => u64::from(*part != [0, 0]),
        Reply::Verdict(yes) => u64::from(*yes),
    }
}

fn class(vector: &Vector) -> Class {
    let outcome = outcome_of(&vector.reply);
    let Call { name, args } = &vector.call;
    // a refusal by the checks 1 to 7 reads nothing of the memory's entries
    if vector.reply.answer().is_some() && (1..=7).contains(&outcome) {
        return Class { name: *name, outcome, features: [0; 6] };
    }
    let [_, rounds, removed, _, stale, kind, _, number, ..] = vector.reply.answer().copied().unwrap_or_default();
    let store = matches!(name, Name::Set | Name::SafeSet | Name::Add | Name::SafeAdd | Name::Replace);
    let counts = matches!(name, Name::Ttl | Name::GetKeys);
    let features = [
        met(vector),
        8 * rounds.min(2) + removed.min(4),
        stale,
        if store { u64::from(args.kind) } else { kind },
        if counts { number.min(3) } else { u64::from(number > i64::MAX as u64) },
        vector.before.count().min(2) as u64,
    ];
    Class { name: *name, outcome, features }
}

/// What the call's key, or the place that bytes_at is asked for, meets.
fn met(vector: &Vector) -> u64 {
    let Vector { before, call, .. } = vector;
    let args = &call.args;
    if call.name == Name::BytesAt {
        let (end, pool) = (u128::from(args.offset) + u128::from(args.length), before.pool.len() as u128);
        return 4 * u64::from(end == pool) + 2 * u64::from(end > pool) + u64::from(args.length > 0);
    }
    // the sweep may take the key's entry before the call looks for it
    let mut swept = before.clone();
    second::get(&mut swept.dir, &mut swept.pool, args.clock, b"no such key");
    8 * own_entry(before, args) + own_entry(&swept, args)
}

/// The entry under the key: none, live, dead; and of another length than the value given, or of the same.
fn own_entry(memory: &Memory, args: &Args) -> u64 {
    let found = second::get_stale(&memory.dir, &memory.pool, args.clock, &args.key);
    if found.outcome != 0 {
        return 0;
    }
    let given = match args.kind {
        1 => 1,
        3 => 8,
        _ => args.text.len() as u64,
    };
    1 + u64::from(found.stale) + 2 * u64::from(found.length == given)
}

/// Runs the call with the second program.
fn made(before: Memory, call: Call) -> Vector {
    let mut after = before.clone();
    let reply = by_second::run(&mut after.dir, &mut after.pool, &call);
    Vector { before, call, reply, after }
}

fn draw(random: &mut Random) -> Vector {
    let mut clock = random.between(50, 100) as u64;
    let mut before = memory(random, &mut clock);
    if random.chance(10) {
        spoil(random, &mut before);
    }
    let args = arguments(random, &before, clock);
    made(before, Call { name: random.pick(&NAMES), args })
}

/// A small memory that sets of the second program have made; at times with dead ones anywhere and with equal keys.
fn memory(random: &mut Random, clock: &mut u64) -> Memory {
    let mut memory = Memory::fresh(random.pick(&[1, 2, 4, 4]));
    memory.pool.fill(random.pick(&[0, 7]));
    for _ in 0..random.below(7) {
        *clock += random.below(12) as u64;
        let args = Args { lifetime: random.pick(&[0, 0, 10, 30]), ..arguments(random, &memory, *clock) };
        by_second::run(&mut memory.dir, &mut memory.pool, &Call { name: Name::Set, args });
    }
    for slot in 0..memory.count() {
        if random.chance(40) {
            memory.record_mut(slot)[0] = random.pick(&[0, 1, *clock, *clock + 6, *clock + 30]);
        }
    }
    if memory.count() > 1 && random.chance(20) {
        let [from, to] = [0, memory.count() - 1].map(|slot| [memory.record(slot)[3], memory.record(slot)[4]]);
        if from[1] == to[1] {
            let begin = CELL * from[0] as usize;
            memory.pool.copy_within(begin..begin + from[1] as usize, CELL * to[0] as usize);
        }
    }
    memory
}

/// The memory is no longer sound, mostly.
fn spoil(random: &mut Random, memory: &mut Memory) {
    match random.below(8) {
        0 => memory.dir.push(0),
        1 => memory.pool.push(0),
        2 => memory.pool.clear(),
        _ => corrupt::change(random, memory),
    }
}

fn arguments(random: &mut Random, memory: &Memory, clock: u64) -> Args {
    let clock = match random.below(24) {
        0 => 0,
        1 => u64::MAX,
        _ => clock + random.pick(&[0, 0, 5, 20, 50]),
    };
    let last = u64::MAX - clock;
    let pool = memory.pool.len() as u64;
    Args {
        clock,
        key: key(random),
        kind: random.weighted(&[(1, 0), (3, 1), (5, 3), (6, 4), (1, 2), (1, 255)]),
        number: number(random),
        text: vec![b'x'; random.pick(&[0, 1, 8, 8, 20, 30, 31, 33, 40, 60, 63, 95, 100, 130])],
        lifetime: random.pick(&[0, 0, 5, 30, 30, last, last.wrapping_add(1), u64::MAX]),
        flags: random.pick(&[0, 5, u32::MAX]),
        step: number(random),
        has_initial: random.chance(70),
        maximum: random.pick(&[0, 0, 1, 2, 9]),
        table: vec![7; random.below(14)],
        offset: random.pick(&[0, 5, 32, pool, pool + 1, u64::MAX]),
        length: random.pick(&[0, 1, 9, pool, pool + 1, 1]),
    }
}

fn key(random: &mut Random) -> Vec<u8> {
    match random.below(30) {
        0 => Vec::new(),
        1 => vec![b'k'; 65_536],
        2 => vec![b'k'; 40],
        _ => random.pick(&[b"a" as &[u8], b"b", b"c", b"d", b"ab", b"ba", b"abc"]).to_vec(),
    }
}
