//! A quick look at the time of one call on a full memory of P = 1,024: `cargo run --release --example timing`.

use std::hint::black_box;
use std::time::Instant;

use second::{audit, get, kind, make_fresh, set, Answer};

const CELLS: usize = 1024;
const CALLS: usize = 100_000;

fn plate(number: usize) -> String {
    format!("plate-{number:06}")
}

fn put(dir: &mut [u64], pool: &mut [u8], number: usize) -> Answer {
    set(dir, pool, 1000, plate(number).as_bytes(), kind::NUMBER, number as i64, b"", 0, 0)
}

fn full_yard() -> (Vec<u64>, Vec<u8>) {
    let mut dir = vec![0; 2 + 6 * CELLS];
    let mut pool = vec![0; 32 * CELLS];
    make_fresh(&mut dir, &mut pool);
    for number in 0..CELLS {
        assert_eq!(put(&mut dir, &mut pool, number), Answer::default());
    }
    (dir, pool)
}

fn time(name: &str, mut call: impl FnMut(usize) -> Answer) {
    let begin = Instant::now();
    for number in 0..CALLS {
        black_box(call(black_box(number)));
    }
    let nanoseconds = begin.elapsed().as_nanos() / CALLS as u128;
    println!("{name}: {nanoseconds} ns a call");
}

fn main() {
    let (mut dir, mut pool) = full_yard();
    let plates: Vec<String> = (0..CELLS).map(plate).collect();
    // 389 has no factor in common with 1,024, so that the keys come round in turn: each is the longest unused one.
    let longest_unused = |number: usize| plates[number * 389 % CELLS].as_bytes();
    let any = |number: usize| plates[number.wrapping_mul(0x9E37_79B9_7F4A_7C15) >> 54].as_bytes();

    time("get, any key", |number| get(&mut dir, &mut pool, 1000, any(number)));
    time("get, longest unused key", |number| get(&mut dir, &mut pool, 1000, longest_unused(number)));
    time("get, front key", |_| get(&mut dir, &mut pool, 1000, any(0)));
    time("get, missing key", |_| get(&mut dir, &mut pool, 1000, b"plate-absent"));
    time("set, any key in place", |number| set(&mut dir, &mut pool, 1000, any(number), kind::NUMBER, 7, b"", 0, 0));
    time("set, new key, one round", |number| put(&mut dir, &mut pool, CELLS + number));
    assert!(audit(&dir, &pool));
}
