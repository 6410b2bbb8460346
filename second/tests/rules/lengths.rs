//! Keys and texts of the lengths at which a rule changes.

use crate::yard::*;

#[test]
fn keys() {
    for (length, outcome, cells) in
        [(0, 3, 0), (1, 0, 1), (31, 0, 2), (32, 0, 2), (33, 0, 2), (65_535, 12, 0), (65_536, 4, 0), (100_000, 4, 0)]
    {
        let key = "k".repeat(length);
        let mut yard = Yard::fresh(4);
        assert_eq!(yard.set(10, &key, weight(7)).outcome, outcome);
        assert_eq!(yard.count(), usize::from(outcome == 0));
        if outcome == 0 {
            assert_eq!(yard.get(10, &key).number, 7);
            assert_eq!(yard.safe_set(10, "free", words(&vec![0; 32 * (4 - cells) - 4])).outcome, 0);
        }
    }
}

#[test]
fn texts() {
    for (length, outcome) in
        [(0, 0), (1, 0), (31, 0), (32, 0), (33, 0), (127, 0), (128, 12), (65_535, 12), (65_536, 12)]
    {
        let bytes: Vec<u8> = (0..length).map(|at| at as u8).collect();
        let mut yard = Yard::fresh(4);
        assert_eq!(yard.set(10, "k", words(&bytes)).outcome, outcome);
        if outcome == 0 {
            let read = yard.get(10, "k");
            assert_eq!((read.offset, read.length), (1, length as u64));
            assert_eq!(yard.show(10, "k", "notice"), bytes);
            assert_eq!(yard.pool[1 + length..], Yard::fresh(4).pool[1 + length..]);
        }
    }
}

#[test]
fn the_whole_of_the_greatest_pool() {
    let mut yard = Yard::fresh(1024);
    let key = "k".repeat(32_767);
    assert_eq!(yard.set(10, &key, words(b"x")), DONE);
    assert_eq!(yard.show(10, &key, "notice"), b"x");
    assert_eq!(yard.set(10, &key, words(b"xx")), refused(12, 0));
    assert_eq!(yard.set(10, &"k".repeat(32_768), words(b"")), DONE);
    assert_eq!(yard.set(10, &"k".repeat(32_769), words(b"")), refused(12, 0));
    assert_eq!(yard.delete(10, &"k".repeat(65_535)), DONE);
    assert_eq!(yard.get(10, &"k".repeat(65_535)), refused(8, 0));
}
