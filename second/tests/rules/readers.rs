//! get, get_stale, ttl, get_keys, show and bytes-at.

use crate::yard::*;
use second::{bytes_at, get_keys_in_rows, Answer, Row};

fn mixed() -> Yard {
    Yard::with(
        8,
        &[
            text("text", 1, "hello").flags(1).expiry(2000),
            boolean("yes", 0, 1).flags(2),
            text("", 7, "").named("empty"),
            number("n", 2, -9).flags(u32::MAX).expiry(900),
            number("m", 3, 9),
        ],
    )
}

impl Hand {
    fn named(self, key: &str) -> Hand {
        Hand { key: key.as_bytes().to_vec(), ..self }
    }
}

#[test]
fn get_answers_and_moves_to_the_front() {
    let mut yard = mixed();
    let text = Answer { kind: 4, flags: 1, offset: 36, length: 5, ..DONE };
    assert_eq!(yard.get(1000, "text"), text);
    assert_eq!(bytes_at(&yard.pool, text.offset, text.length), b"hello");
    assert_eq!(yard.get(1000, "m"), Answer { kind: 3, number: 9, offset: 97, length: 8, ..DONE });
    assert_eq!(yard.order(), "m text yes empty n");
    // The sweep now takes n.
    let yes = Answer { kind: 1, flags: 2, number: 1, offset: 3, length: 1, removed: 1, ..DONE };
    assert_eq!(yard.get(1000, "yes"), yes);
    assert_eq!(yard.get(1000, "empty"), Answer { kind: 4, offset: 229, length: 0, ..DONE });
    assert_eq!(yard.order(), "empty yes m text");
    assert_eq!(yard.pool, mixed().pool_without([2]));
}

#[test]
fn a_miss_holds_nothing_of_the_last_answer() {
    let mut yard = mixed();
    assert_eq!(yard.get(1000, "n"), refused(8, 0));
    assert_eq!(yard.get(1000, "none"), refused(8, 0));
    assert_eq!(yard.get(1000, ""), refused(3, 0));
    assert_eq!(yard, mixed());
}

#[test]
fn get_stale_changes_nothing() {
    let yard = mixed();
    let dead = Answer { stale: true, kind: 3, flags: u32::MAX, number: -9, offset: 65, length: 8, ..DONE };
    assert_eq!(yard.get_stale(1000, "n"), dead);
    assert_eq!(yard.get_stale(899, "n"), Answer { stale: false, ..dead });
    let live = Answer { kind: 1, flags: 2, number: 1, offset: 3, length: 1, ..DONE };
    assert_eq!(yard.get_stale(u64::MAX, "yes"), live);
    assert_eq!(yard.get_stale(1000, "none"), refused(8, 0));
}

#[test]
fn keys_are_found_by_all_their_bytes() {
    let mut yard = Yard::with(4, &[text("a", 0, "b"), text("ab", 1, ""), text("a\0", 2, "")]);
    assert_eq!(yard.get(10, "ab").offset, 34);
    assert_eq!(yard.get(10, "a\0").offset, 66);
    assert_eq!(yard.get(10, "a").offset, 1);
    assert_eq!(yard.get(10, "b"), refused(8, 0));
    assert_eq!(yard.get(10, "\0"), refused(8, 0));
}

#[test]
fn ttl_counts() {
    let yard = mixed();
    assert_eq!(yard.ttl(1000, "text"), Answer { count: 1000, ..DONE });
    assert_eq!(yard.ttl(1999, "text"), Answer { count: 1, ..DONE });
    assert_eq!(yard.ttl(2000, "text"), refused(8, 0));
    assert_eq!(yard.ttl(1000, "yes"), DONE);
    assert_eq!(yard.ttl(1000, "none"), refused(8, 0));
    let yard = Yard::with(1, &[text("a", 0, "").expiry(u64::MAX)]);
    assert_eq!(yard.ttl(1, "a"), Answer { count: u64::MAX - 1, ..DONE });
    assert_eq!(yard.ttl(u64::MAX, "a"), refused(8, 0));
}

#[test]
fn show_gives_live_texts_only() {
    let yard = mixed();
    assert_eq!(yard.show(1000, "text", "notice"), b"hello");
    assert_eq!(yard.show(2000, "text", "notice"), b"notice");
    assert_eq!(yard.show(1000, "yes", "notice"), b"notice");
    assert_eq!(yard.show(1000, "m", ""), b"");
    // An empty live text is the empty part of the pool and not the notice.
    assert_eq!(yard.show(1000, "empty", "notice"), b"");
}

#[test]
fn bytes_at_lends_a_part_of_the_pool() {
    let pool: Vec<u8> = (0..10).collect();
    assert_eq!(bytes_at(&pool, 2, 3), [2, 3, 4]);
    assert_eq!(bytes_at(&pool, 2, 3).as_ptr(), pool[2..].as_ptr());
    assert_eq!(bytes_at(&pool, 0, 10), pool);
    assert_eq!(bytes_at(&pool, 10, 0), []);
    assert_eq!(bytes_at(&pool, 10, 0).as_ptr(), pool[10..].as_ptr());
    for (offset, length) in
        [(10, 1), (11, 0), (0, 11), (u64::MAX, 1), (1, u64::MAX), (u64::MAX, u64::MAX), (1 << 63, 1 << 63)]
    {
        assert_eq!(bytes_at(&pool, offset, length), []);
        assert_eq!(bytes_at(&pool, offset, length).as_ptr(), pool.as_ptr());
    }
    assert_eq!(bytes_at(&[], 0, 0), []);
    assert_eq!(bytes_at(&[], 0, 1), []);
}

const ROWS: [u64; 12] = [1, 4, 4, 0, 3, 1, 7, 5, 4, 3, 1, 3];

#[test]
fn get_keys_lists_live_entries_most_recent_first() {
    let mut rows = [99; 17];
    assert_eq!(mixed().get_keys(1000, 0, &mut rows), Answer { count: 4, ..DONE });
    assert_eq!(rows[..12], ROWS);
    assert_eq!(rows[12..], [99; 5]);
    // At an earlier clock n is live again, at a later one the text is dead too.
    assert_eq!(mixed().get_keys(1, 0, &mut rows).count, 5);
    assert_eq!(mixed().get_keys(2000, 0, &mut rows).count, 3);
}

#[test]
fn get_keys_answers_the_least_of_three() {
    for maximum in 0..7 {
        for words in 0..18 {
            let mut rows = vec![99; words];
            let answer = mixed().get_keys(1000, maximum, &mut rows);
            let limit = if maximum == 0 { u64::MAX } else { maximum };
            let count = limit.min(words as u64 / 3).min(4);
            assert_eq!(answer, Answer { count, ..DONE });
            let filled = 3 * count as usize;
            assert_eq!(rows[..filled], ROWS[..filled]);
            assert!(rows[filled..].iter().all(|&word| word == 99));
        }
    }
    assert_eq!(mixed().get_keys(1000, u64::MAX, &mut [0; 30]).count, 4);
}

#[test]
fn get_keys_into_row_structs() {
    let blank = Row { start: 99, key_length: 99, kind: 99 };
    let yard = mixed();
    let mut rows = [blank; 6];
    assert_eq!(get_keys_in_rows(&yard.dir, &yard.pool, 1000, 0, &mut rows), Answer { count: 4, ..DONE });
    let flat: Vec<u64> = rows.iter().flat_map(|row| [row.start, row.key_length, row.kind]).collect();
    assert_eq!(flat[..12], ROWS);
    assert_eq!(rows[4..], [blank; 2]);
    assert_eq!(get_keys_in_rows(&yard.dir, &yard.pool, 0, 0, &mut rows), refused(2, 0));
    assert_eq!(get_keys_in_rows(&yard.dir, &yard.pool, 1000, 2, &mut rows).count, 2);
}

#[test]
fn get_keys_leaves_the_rows_on_a_refusal() {
    let mut rows = [99; 6];
    assert_eq!(mixed().get_keys(0, 0, &mut rows), refused(2, 0));
    assert_eq!(rows, [99; 6]);
}
