//! Each call that is done: every field of its answer, as a type.

use crate::yard::{fresh, full, order, text_for, PLAIN};
use reefcandor::{Counted, Found, Initial, Row, Stored, Value};

#[test]
fn get_tells_each_kind_with_flags_and_place() {
    let mut yard = fresh();
    let flags = 0xffff_fff0;
    let values =
        [Value::Boolean(true), Value::Boolean(false), Value::Number(i64::MIN), Value::Text(b""), Value::Text(b"tare")];
    for (value, length) in values.into_iter().zip([1, 1, 8, 0, 4]) {
        assert_eq!(yard.set(1, b"AB12", value, 0, flags), Ok(PLAIN));
        let found = Found { value, flags, stale: false, removed: 0, offset: 4, length };
        assert_eq!(yard.get(1, b"AB12"), Ok(found));
        assert_eq!(yard.get_stale(1, b"AB12"), Ok(found));
    }
}

#[test]
fn get_tells_what_its_sweep_took_and_moves_the_entry() {
    let mut yard = full(0);
    assert_eq!(yard.expire(1000, b"a", 500), Ok(()));
    assert_eq!(yard.get(1500, b"c").map(|found| found.removed), Ok(1));
    assert_eq!(order(&yard, 1), "cdb");
}

#[test]
fn get_stale_marks_a_dead_entry_and_changes_nothing() {
    let yard = full(500);
    let before = yard.clone();
    let found = Found { value: Value::Number(2), flags: 0, stale: true, removed: 0, offset: 33, length: 8 };
    assert_eq!(yard.get_stale(1500, b"b"), Ok(found));
    assert_eq!(yard.get_stale(1499, b"b"), Ok(Found { stale: false, ..found }));
    assert_eq!(yard, before);
}

#[test]
fn ttl_is_what_is_left_and_0_for_ever() {
    let yard = full(u64::MAX - 1000);
    assert_eq!(yard.ttl(1, b"a"), Ok(0));
    assert_eq!(yard.ttl(1, b"b"), Ok(u64::MAX - 1));
}

#[test]
fn stores_tell_sweep_and_rounds() {
    let mut yard = full(0);
    assert_eq!(yard.expire(1000, b"a", 500), Ok(()));
    let swept = Stored { rounds: 0, removed: 1, forced: false };
    assert_eq!(yard.add(1500, b"e", Value::Number(5), 0, 0), Ok(swept));
    assert_eq!(yard.replace(1500, b"e", Value::Text(b"12345678"), 0, 0), Ok(PLAIN));
    assert_eq!(yard.safe_set(1500, b"e", Value::Boolean(true), 0, 0), Ok(PLAIN));
    let forced = Stored { rounds: 1, removed: 1, forced: true };
    assert_eq!(yard.add(1500, b"f", Value::Boolean(true), 0, 0), Ok(forced));
    assert_eq!(yard.delete(1500, b"f"), Ok(0));
    assert_eq!(yard.safe_add(1500, b"f", Value::Boolean(true), 0, 0), Ok(PLAIN));
    assert_eq!(order(&yard, 1500), "fedc");
}

#[test]
fn nil_deletes_and_tells_the_sweep() {
    let mut yard = full(0);
    assert_eq!(yard.set(1000, b"b", Value::Nil, 0, 0), Ok(PLAIN));
    assert_eq!(yard.expire(1000, b"a", 500), Ok(()));
    assert_eq!(yard.safe_set(1500, b"c", Value::Nil, 0, 0), Ok(Stored { removed: 1, ..PLAIN }));
    assert_eq!(order(&yard, 1500), "d");
}

#[test]
fn incr_tells_the_number_and_what_storing_took() {
    let mut yard = full(0);
    assert_eq!(yard.incr(1000, b"a", -9, None), Ok(Counted { number: -8, stored: PLAIN }));
    assert_eq!(order(&yard, 1000), "adcb");
    let initial = Some(Initial { number: 5, lifetime: 9 });
    let stored = Stored { rounds: 1, removed: 1, forced: true };
    assert_eq!(yard.incr(1000, b"m", 2, initial), Ok(Counted { number: 7, stored }));
    assert_eq!(yard.ttl(1000, b"m"), Ok(9));
    // a live number keeps its own expiry
    assert_eq!(yard.incr(1001, b"m", 1, initial), Ok(Counted { number: 8, stored: PLAIN }));
    assert_eq!(yard.ttl(1001, b"m"), Ok(8));
}

#[test]
fn upkeep_tells_how_many_left() {
    let mut yard = full(0);
    assert_eq!(yard.expire(1000, b"a", 500), Ok(()));
    assert_eq!(yard.delete(1500, b"nobody"), Ok(1));
    assert_eq!(yard.delete(1500, b"b"), Ok(0));
    assert_eq!(yard.flush_all(), Ok(()));
    assert_eq!(order(&yard, 1), "");
    assert_eq!(yard.flush_expired(1, 1), Ok(1));
    assert!(yard.get_stale(1, b"c").is_err() && yard.get_stale(1, b"d").is_ok());
    assert_eq!(yard.flush_expired(1, 0), Ok(1));
    assert_eq!(yard.flush_expired(1, 0), Ok(0));
}

#[test]
fn expire_of_0_is_never() {
    let mut yard = full(500);
    assert_eq!(yard.expire(1000, b"b", 0), Ok(()));
    assert_eq!(yard.ttl(u64::MAX, b"b"), Ok(0));
}

#[test]
fn show_gives_the_text_or_the_notice() {
    let mut yard = full(0);
    let notice = b"weigh empty";
    assert_eq!(yard.show(1, b"b", notice), notice, "a number is not shown");
    assert_eq!(yard.show(1, b"nobody", notice), notice);
    assert_eq!(yard.show(1, b"", notice), notice);
    assert_eq!(yard.set(1000, b"b", Value::Text(b"tare"), 500, 0), Ok(PLAIN));
    assert_eq!(yard.show(1000, b"b", notice), b"tare");
    assert_eq!(yard.show(1500, b"b", notice), notice);
    assert_eq!(yard.show(0, b"b", notice), notice);
    assert_eq!(yard.set(1000, b"b", Value::Text(b""), 500, 0), Ok(PLAIN));
    assert_eq!(yard.show(1000, b"b", notice), b"", "an empty text is a text");
}

#[test]
fn bytes_at_is_a_part_of_the_pool_or_empty() {
    let yard = full(0);
    let pool = yard.pool();
    assert_eq!(yard.bytes_at(33, 8), 2i64.to_le_bytes());
    assert_eq!(yard.bytes_at(0, 128), pool);
    assert_eq!(yard.bytes_at(128, 0), b"");
    assert_eq!(yard.bytes_at(1, 128), b"");
    assert_eq!(yard.bytes_at(1, u64::MAX), b"");
    assert_eq!(yard.bytes_at(u64::MAX, u64::MAX), b"");
    assert_eq!(yard.bytes_at(33, 8).as_ptr(), pool[33..].as_ptr(), "lent, not copied");
}

#[test]
fn get_keys_lends_back_the_rows_that_it_filled() {
    let mut yard = full(500);
    assert_eq!(yard.set(1000, b"a", Value::Text(&text_for(1)), 0, 0), Ok(PLAIN));
    let stays = Row { start: 99, key_length: 99, kind: 99 };
    let mut table = [stays; 3];
    let a = Row { start: 0, key_length: 1, kind: 4 };
    let d = Row { start: 3, key_length: 1, kind: 3 };
    assert_eq!(yard.get_keys(1000, 2, &mut table), Ok(&[a, d][..]), "the maximum");
    assert_eq!(table, [a, d, stays]);
    assert_eq!(yard.get_keys(1500, 0, &mut table), Ok(&[a][..]), "the live entries");
    assert_eq!(yard.get_keys(1000, 0, &mut table[..1]), Ok(&[a][..]), "the rows");
    assert_eq!(yard.get_keys(1000, 0, &mut []), Ok(&[][..]));
    assert_eq!(yard.key_of(&a), b"a");
    assert_eq!(yard.key_of(&stays), b"", "a row of nowhere has no key");
    assert_eq!(yard.key_of(&Row { start: u64::MAX, key_length: u64::MAX, kind: 0 }), b"");
}
