//! The plates of document 01 that say something of rounds, removals, places and order.

use crate::yard::{bare, fresh, full, order, text_for, PLAIN};
use reefcandor::{Dict, Refusal, Refused, Stored, Value};

/// The start cell of the most recently used entry.
fn start_of_first(yard: &Dict) -> Option<&u64> {
    yard.dir().get(2 + 3)
}

fn forced(rounds: u64, removed: u64) -> Stored {
    Stored { rounds, removed, forced: true }
}

#[test]
fn p2_to_p4_a_tare_lives_up_to_its_expiry() {
    let mut yard = fresh();
    assert_eq!(yard.set(1000, b"AB12", Value::Number(14_200), 500, 0), Ok(PLAIN));
    assert_eq!(yard.dir()[..8], [1, 1, 1500, 3, 0, 0, 4, 8]);
    assert_eq!(yard.get(1499, b"AB12").map(|found| found.value), Ok(Value::Number(14_200)));
    assert_eq!(yard.ttl(1499, b"AB12"), Ok(1));
    assert_eq!(yard.get(1500, b"AB12"), Err(Refused { removed: 1, ..bare(Refusal::NotFound) }));
    assert_eq!(yard.dir()[..2], [1, 0]);
}

#[test]
fn p5_to_p8_rounds_make_a_place() {
    let mut yard = full(0);
    assert_eq!(yard.set(1000, b"e", Value::Text(&text_for(1)), 0, 0), Ok(forced(1, 1)));
    assert_eq!((order(&yard, 1000).as_str(), start_of_first(&yard)), ("edcb", Some(&0)));

    let mut yard = full(0);
    assert_eq!(yard.set(1000, b"e", Value::Text(&text_for(2)), 0, 0), Ok(forced(2, 2)));
    assert_eq!((order(&yard, 1000).as_str(), start_of_first(&yard)), ("edc", Some(&0)));

    let mut yard = full(0);
    assert!(yard.get(1000, b"b").is_ok() && yard.get(1000, b"d").is_ok());
    assert_eq!(yard.set(1000, b"e", Value::Text(&text_for(2)), 0, 0), Ok(forced(3, 3)));
    assert_eq!((order(&yard, 1000).as_str(), start_of_first(&yard)), ("ed", Some(&0)));

    let mut yard = full(500);
    assert_eq!(yard.set(1500, b"e", Value::Number(5), 0, 0), Ok(forced(1, 3)));
    assert_eq!(order(&yard, 1499), "ed");
}

#[test]
fn not_forced_where_only_dead_ones_go() {
    let mut yard = fresh();
    for (key, lifetime) in [(b"a", 500), (b"b", 500), (b"c", 500), (b"d", 0)] {
        assert_eq!(yard.set(1000, key, Value::Number(1), lifetime, 0), Ok(PLAIN));
    }
    let stored = Stored { rounds: 1, removed: 3, forced: false };
    assert_eq!(yard.set(1500, b"e", Value::Text(&text_for(3)), 0, 0), Ok(stored));
    assert_eq!((order(&yard, 1500).as_str(), start_of_first(&yard)), ("ed", Some(&0)));
}

#[test]
fn p9_to_p11_a_refused_store_keeps_no_old_tare() {
    let mut yard = full(0);
    let before = yard.clone();
    assert_eq!(yard.set(1000, b"e", Value::Text(&text_for(5)), 0, 0), Err(bare(Refusal::NoMemory)));
    assert_eq!(yard, before);
    assert_eq!(yard.safe_set(1000, b"e", Value::Number(5), 0, 0), Err(bare(Refusal::NoMemory)));
    assert_eq!(yard, before);
    assert_eq!(yard.safe_set(1000, b"a", Value::Text(&text_for(2)), 0, 0), Err(bare(Refusal::NoMemory)));
    assert_eq!(order(&yard, 1000), "dcb");
    let (_, pool) = yard.into_parts();
    assert!(pool[..32].iter().all(|&byte| byte == 0), "a's cell is wiped");
    assert_eq!(pool[32], b'b');
}

#[test]
fn p12_an_equal_length_is_overwritten_in_place() {
    let mut yard = full(0);
    assert_eq!(yard.set(1000, b"b", Value::Number(-7), 0, 0), Ok(PLAIN));
    assert_eq!((order(&yard, 1000).as_str(), start_of_first(&yard)), ("bdca", Some(&1)));
    assert_eq!(yard.get(1000, b"b").map(|found| found.value), Ok(Value::Number(-7)));
}
