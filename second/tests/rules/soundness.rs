//! Check 1 on wild buffers: every call ends without fault, answers 1 and leaves them as they were.

use crate::yard::*;
use second::{get_keys_in_rows, make_fresh, Answer, Row};

/// Every call but bytes-at, with arguments that pass all other checks.
fn every_call(yard: &mut Yard) -> Vec<Answer> {
    let mut rows = [7; 9];
    let mut answers = vec![
        yard.get(1000, "a"),
        yard.get_stale(1000, "a"),
        yard.delete(1000, "a"),
        yard.ttl(1000, "a"),
        yard.incr(1000, "a", 1, None),
        yard.incr(1000, "a", 1, Some((1, 1))),
        yard.expire(1000, "a", 1),
        yard.flush_all(),
        yard.flush_expired(1000, 0),
        yard.get_keys(1000, 0, &mut rows),
        get_keys_in_rows(&yard.dir, &yard.pool, 1000, 0, &mut [Row::default(); 3]),
    ];
    for (form, _) in FORMS {
        answers.push(yard.store(form, 1000, b"a", weight(1)));
        answers.push(yard.store(form, 1000, b"a", words(b"text")));
    }
    answers.push(yard.set(1000, "a", NIL));
    if answers[0].outcome == 1 {
        assert_eq!(rows, [7; 9]);
        assert_eq!(yard.show(1000, "a", "notice"), b"notice");
        assert!(!yard.audit());
    }
    answers
}

fn assert_not_sound(mut yard: Yard) {
    let before = yard.clone();
    for answer in every_call(&mut yard) {
        assert_eq!(answer, refused(1, 0));
    }
    assert_eq!(yard, before);
}

/// Soundness said once more, in another way: every entry alone, then every pair of entries.
fn sound_by_pairs(yard: &Yard) -> bool {
    let (words, bytes) = (yard.dir.len(), yard.pool.len());
    if !(1..=1024).any(|cells| words == 2 + 6 * cells && bytes == 32 * cells) {
        return false;
    }
    let cells = bytes as u128 / 32;
    if yard.dir[0] != 1 || u128::from(yard.dir[1]) > cells {
        return false;
    }
    let count = yard.count();
    let runs: Vec<Option<(u128, u128)>> = (0..count).map(|slot| run_alone(yard, slot, cells)).collect();
    let apart = |i: usize, j: usize| match (runs[i], runs[j]) {
        (Some((from, to)), Some((other_from, other_to))) => to <= other_from || other_to <= from,
        _ => false,
    };
    runs.iter().all(Option::is_some)
        && (0..count).all(|i| (0..i).all(|j| apart(i, j)))
        && yard.dir[2 + 6 * count..].iter().all(|&word| word == 0)
}

fn run_alone(yard: &Yard, slot: usize, cells: u128) -> Option<(u128, u128)> {
    let [_, kind, flags, start, key, value] = yard.record(slot).map(u128::from);
    let to = start + (key + value).div_ceil(32);
    let fits = match kind {
        1 => value == 1,
        3 => value == 8,
        4 => true,
        _ => false,
    };
    let good = fits && flags <= 0xFFFF_FFFF && (1..=65_535).contains(&key) && to <= cells;
    (good && (kind != 1 || yard.value(slot)[0] < 2)).then_some((start, to))
}

#[test]
fn wrong_lengths() {
    for (words, bytes) in [
        (0, 0),
        (1, 0),
        (2, 0),
        (2, 32),
        (8, 0),
        (8, 31),
        (8, 33),
        (8, 64),
        (9, 32),
        (7, 32),
        (14, 32),
        (2 + 7, 32),
        (2 + 6 * 1025, 32 * 1025),
        (2 + 6 * 2000, 32 * 2000),
        (2 + 6 * 1024, 32 * 1024 - 1),
        (2 + 6 * 1024 + 1, 32 * 1024),
    ] {
        let mut yard = Yard { dir: vec![0; words], pool: vec![0; bytes] };
        if words > 0 {
            yard.dir[0] = 1;
        }
        assert_not_sound(yard.clone());
        let before = yard.clone();
        assert_eq!(make_fresh(&mut yard.dir, &mut yard.pool), refused(1, 0));
        assert_eq!(yard, before);
    }
}

#[test]
fn fresh_takes_any_contents() {
    for cells in [1, 2, 4, 1023, 1024] {
        let mut yard = Yard::wild(cells);
        assert_not_sound(yard.clone());
        assert_eq!(make_fresh(&mut yard.dir, &mut yard.pool), DONE);
        assert!(yard.pool.iter().all(|&byte| byte == 0));
        assert_eq!(yard.dir[0], 1);
        assert!(yard.dir[1..].iter().all(|&word| word == 0));
        assert!(yard.audit());
    }
}

#[test]
fn form_and_count() {
    for form in [0, 2, 3, u64::MAX] {
        let mut yard = Yard::full();
        yard.dir[0] = form;
        assert_not_sound(yard);
    }
    for count in [0, 3, 5, 1 << 61, u64::MAX] {
        let mut yard = Yard::full();
        yard.dir[1] = count;
        assert_not_sound(yard);
    }
}

#[test]
fn unused_records_are_zero() {
    for word in 8..26 {
        let mut yard = Yard::with(4, &[number("a", 0, 1)]);
        yard.dir[word] = 1;
        assert_not_sound(yard);
    }
}

#[test]
fn kinds_and_values() {
    let with_kind = |kind, value: &[u8]| Yard::with(4, &[Hand { kind, value: value.to_vec(), ..number("a", 0, 1) }]);
    for kind in [0, 2, 5, 255] {
        assert_not_sound(with_kind(kind, &[0]));
        assert_not_sound(with_kind(kind, &[0; 8]));
    }
    assert_not_sound(with_kind(1, &[]));
    assert_not_sound(with_kind(1, &[2]));
    assert_not_sound(with_kind(1, &[255]));
    assert_not_sound(with_kind(1, &[1, 1]));
    assert_not_sound(with_kind(3, &[0; 7]));
    assert_not_sound(with_kind(3, &[0; 9]));
    for sound in [with_kind(1, &[0]), with_kind(1, &[1]), with_kind(3, &[255; 8]), with_kind(4, &[])] {
        assert!(sound.audit());
    }
    let mut wide = with_kind(4, &[]);
    wide.dir[3] = 256 + 4;
    assert_not_sound(wide);
}

#[test]
fn flags_below_two_to_the_32() {
    let mut yard = Yard::with(4, &[number("a", 0, 1).flags(u32::MAX)]);
    assert!(yard.audit());
    yard.dir[4] += 1;
    assert_not_sound(yard);
}

#[test]
fn lengths_and_runs() {
    let with = |start, key, value| {
        let mut yard = Yard::with(4, &[text("a", 0, "x")]);
        yard.dir[5..8].copy_from_slice(&[start, key, value]);
        yard
    };
    assert!(with(0, 128, 0).audit());
    assert!(with(0, 1, 127).audit());
    assert!(with(3, 32, 0).audit());
    for (start, key, value) in [
        (0, 0, 5),
        (0, 129, 0),
        (0, 1, 128),
        (3, 32, 1),
        (4, 1, 0),
        (u64::MAX, 1, 0),
        (u64::MAX, 32, 1),
        (0, 1, u64::MAX),
        (0, 1, u64::MAX - 1),
        (0, u64::MAX, 1),
        (0, u64::MAX, u64::MAX),
        (u64::MAX, u64::MAX, u64::MAX),
        (u64::MAX - 1, 64, 0),
        (1, 1, u64::MAX - 31),
        (0, 65_535, 0),
        (0, 65_536, 0),
    ] {
        assert_not_sound(with(start, key, value));
    }
}

#[test]
fn shared_cells() {
    let long = "x".repeat(60);
    assert_not_sound(Yard::with(4, &[text("a", 0, &long), text("b", 1, "")]));
    assert_not_sound(Yard::with(4, &[text("b", 1, ""), text("a", 0, &long)]));
    assert_not_sound(Yard::with(4, &[text("a", 2, ""), text("a", 2, "")]));
    assert!(Yard::with(4, &[text("a", 0, &long), text("b", 2, "")]).audit());
}

#[test]
fn one_word_changed() {
    let base = Yard::with(
        6,
        &[number("a", 0, 1), text("text", 1, &"x".repeat(40)).expiry(7), boolean("b", 4, 1).flags(3), text("t", 5, "")],
    );
    let words = [0, 1, 2, 3, 4, 5, 6, 7, 8, 9, 31, 32, 33, 63, 64, 65_535, 65_536, 1 << 32, 1 << 61, 1 << 63, u64::MAX];
    for at in 0..base.dir.len() {
        for word in words {
            let mut yard = base.clone();
            yard.dir[at] = word;
            if sound_by_pairs(&yard) {
                assert!(every_call(&mut yard).iter().all(|answer| answer.outcome != 1));
            } else {
                assert_not_sound(yard);
            }
        }
    }
}

#[test]
fn random_directories() {
    let mut dice = Dice::new(1);
    let extreme = [0, 1, 3, 4, 8, 31, 32, 33, u64::MAX, 1 << 63];
    let mut sound = 0;
    for _ in 0..20_000 {
        let cells = 1 + dice.below(4);
        let mut yard = Yard::fresh(cells);
        yard.dir[1] = dice.below(cells + 1) as u64;
        yard.pool.iter_mut().for_each(|byte| *byte = dice.below(3) as u8);
        for slot in 0..yard.count() {
            let value = dice.pick(&[1, 8, 8, 0, 40]);
            let kind = dice.pick(&[1, 3, 4, 4, 4]);
            let record = [dice.word(), kind, 5, dice.below(cells) as u64, 1 + dice.below(30) as u64, value];
            yard.dir[2 + 6 * slot..8 + 6 * slot].copy_from_slice(&record);
        }
        if dice.one_in(4) {
            let at = dice.below(yard.dir.len());
            yard.dir[at] = dice.pick(&extreme);
        }
        if sound_by_pairs(&yard) {
            sound += 1;
            assert!(every_call(&mut yard).iter().all(|answer| answer.outcome != 1));
        } else {
            assert_not_sound(yard);
        }
    }
    assert!(sound > 2_000, "only {sound} sound memories");
}

#[test]
fn buffers_of_pure_chance() {
    let mut dice = Dice::new(2);
    for _ in 0..2_000 {
        let mut yard = Yard { dir: vec![0; dice.below(40)], pool: vec![0; dice.below(200)] };
        yard.dir.iter_mut().for_each(|word| *word = dice.word() >> dice.below(64));
        yard.pool.iter_mut().for_each(|byte| *byte = dice.word() as u8);
        if !sound_by_pairs(&yard) {
            assert_not_sound(yard);
        }
    }
}

#[test]
fn audit_asks_for_different_keys_too() {
    assert!(Yard::full().audit());
    assert!(!Yard::with(4, &[number("a", 0, 1), number("a", 1, 2)]).audit());
    assert!(!Yard::with(4, &[number("a", 0, 1), number("b", 2, 2), text("a", 1, "").expiry(1)]).audit());
    assert!(Yard::with(4, &[number("a", 0, 1), number("aa", 1, 2)]).audit());
}
