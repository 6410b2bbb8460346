//! Buffers of every form: lent, owned and only read, of right and wrong lengths; and values borrowed from the pool.

use crate::yard::{bare, full, PLAIN};
use reefcandor::{dir_words, pool_bytes, Dict, Refusal, Value, MAX_CELLS};

#[test]
fn a_lent_memory_keeps_what_was_stored() {
    let (mut dir, mut pool) = ([u64::MAX; dir_words(4)], [0xffu8; pool_bytes(4)]);
    let mut dict = Dict::from_parts(&mut dir[..], &mut pool[..]);
    assert_eq!(dict.make_fresh(), Ok(()));
    assert_eq!(dict.set(1, b"AB12", Value::Number(14_200), 0, 0), Ok(PLAIN));
    assert_eq!(dir[..8], [1, 1, 0, 3, 0, 0, 4, 8]);
    assert!(dir[8..].iter().all(|&word| word == 0));
    assert_eq!(pool[..4], *b"AB12");
    assert!(pool[12..].iter().all(|&byte| byte == 0), "a fresh memory's pool is zero");
    // handed in again
    let mut dict = Dict::from_parts(&mut dir, &mut pool);
    assert_eq!(dict.get(1, b"AB12").map(|found| found.value), Ok(Value::Number(14_200)));
}

#[test]
fn buffers_of_other_forms_are_taken() {
    let (dir, pool) = full(0).into_parts();
    let mut boxed = Dict::from_parts(dir.clone().into_boxed_slice(), pool.clone().into_boxed_slice());
    assert!(boxed.delete(1, b"a").is_ok() && boxed.audit());
    let dir: [u64; dir_words(4)] = dir.try_into().expect("the length");
    let mut arrays = Dict::from_parts(dir, pool);
    assert!(arrays.delete(1, b"a").is_ok() && arrays.audit());
}

#[test]
fn what_changes_nothing_needs_only_to_read() {
    let (dir, pool) = full(0).into_parts();
    let dict = Dict::from_parts(&dir[..], &pool[..]);
    assert!(dict.audit());
    assert_eq!(dict.get_stale(1, b"b").map(|found| found.value), Ok(Value::Number(2)));
    assert_eq!(dict.ttl(1, b"b"), Ok(0));
    // a key may lie in a pool that is only read
    assert_eq!(dict.ttl(1, dict.bytes_at(32, 1)), Ok(0));
}

#[test]
fn a_text_is_lent_by_the_pool() {
    let mut dict = Dict::new(4).expect("four cells");
    assert_eq!(dict.set(1, b"note", Value::Text(b"axle 2 lifted"), 0, 0), Ok(PLAIN));
    let pool = dict.pool().as_ptr_range();
    let Ok(Value::Text(text)) = dict.get(1, b"note").map(|found| found.value) else { panic!("a text") };
    assert_eq!(text, b"axle 2 lifted");
    assert!(pool.contains(&text.as_ptr()), "lent, not copied");
    // one that is only read may be held together with others
    let (first, second) = (dict.get_stale(1, b"note"), dict.show(1, b"note", b""));
    assert_eq!(first.map(|found| found.value), Ok(Value::Text(second)));
}

#[test]
fn parts_go_in_and_come_out_as_they_are() {
    let (dir, pool) = (vec![7u64; 3], vec![9u8; 5]);
    let dict = Dict::from_parts(dir.clone(), pool.clone());
    assert_eq!((dict.dir(), dict.pool()), (&dir[..], &pool[..]));
    assert_eq!(dict.into_parts(), (dir, pool));
}

#[test]
fn new_takes_1_to_1024_cells() {
    for cells in [1, 2, MAX_CELLS] {
        let dict = Dict::new(cells).expect("a number of cells");
        assert!(dict.audit());
        assert_eq!((dict.dir().len(), dict.pool().len()), (2 + 6 * cells, 32 * cells));
    }
    for cells in [0, MAX_CELLS + 1, usize::MAX / 32, usize::MAX] {
        assert_eq!(Dict::new(cells), Err(bare(Refusal::NotSound)));
    }
}

#[test]
fn wrong_lengths_are_refused() {
    let lengths = [(0, 0), (0, 128), (26, 0), (25, 128), (27, 128), (26, 127), (26, 129), (26, 160), (2, 0)];
    for (words, bytes) in lengths.into_iter().chain([(dir_words(1025), pool_bytes(1025))]) {
        let mut dict = Dict::from_parts(vec![1u64; words], vec![1u8; bytes]);
        let before = dict.clone();
        assert_eq!(dict.make_fresh(), Err(bare(Refusal::NotSound)), "{words} words, {bytes} bytes");
        assert_eq!(dict.get(1, b"a"), Err(bare(Refusal::NotSound)), "{words} words, {bytes} bytes");
        assert!(!dict.audit());
        assert_eq!(dict, before);
    }
}

#[test]
fn lengths_for_any_number_of_cells_do_not_overflow() {
    assert_eq!((dir_words(0), pool_bytes(0)), (2, 0));
    assert_eq!((dir_words(4), pool_bytes(4)), (26, 128));
    assert_eq!((dir_words(usize::MAX), pool_bytes(usize::MAX)), (usize::MAX, usize::MAX));
}
