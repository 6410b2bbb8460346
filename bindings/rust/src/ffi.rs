//! The library's functions as include/reefcandor.h declares them; what each does, and what its caller owes, stands there.
#![allow(missing_docs)] // said once, in the header

/// The ten words of an answer: outcome, rounds, removed, forced, stale, kind, flags, number (its bits), offset, length.
pub type Words = [u64; 10];

/// A store: set, safe_set, add, safe_add and replace take the same arguments.
pub type Store = unsafe extern "C" fn(
    dir: *mut u64,
    dir_len: usize,
    pool: *mut u8,
    pool_len: usize,
    clock: u64,
    key: *const u8,
    key_len: usize,
    kind: u8,
    number: i64,
    text: *const u8,
    text_len: usize,
    lifetime: u64,
    flags: u32,
    answer: *mut Words,
);

macro_rules! stores {
    ($($name:ident),*) => {
        extern "C" {
            $(pub fn $name(
                dir: *mut u64,
                dir_len: usize,
                pool: *mut u8,
                pool_len: usize,
                clock: u64,
                key: *const u8,
                key_len: usize,
                kind: u8,
                number: i64,
                text: *const u8,
                text_len: usize,
                lifetime: u64,
                flags: u32,
                answer: *mut Words,
            );)*
        }
    };
}

stores!(reefcandor_set, reefcandor_safe_set, reefcandor_add, reefcandor_safe_add, reefcandor_replace);

extern "C" {
    pub fn reefcandor_make_fresh(dir: *mut u64, dir_len: usize, pool: *mut u8, pool_len: usize, answer: *mut Words);

    pub fn reefcandor_audit(dir: *const u64, dir_len: usize, pool: *const u8, pool_len: usize) -> bool;

    pub fn reefcandor_get(
        dir: *mut u64, dir_len: usize, pool: *mut u8, pool_len: usize, clock: u64, key: *const u8, key_len: usize,
        answer: *mut Words,
    );

    pub fn reefcandor_get_stale(
        dir: *const u64, dir_len: usize, pool: *const u8, pool_len: usize, clock: u64, key: *const u8, key_len: usize,
        answer: *mut Words,
    );

    pub fn reefcandor_ttl(
        dir: *const u64, dir_len: usize, pool: *const u8, pool_len: usize, clock: u64, key: *const u8, key_len: usize,
        answer: *mut Words,
    );

    pub fn reefcandor_bytes_at(pool: *const u8, pool_len: usize, offset: u64, length: u64, place: *mut [u64; 2]);

    pub fn reefcandor_show(
        dir: *const u64, dir_len: usize, pool: *const u8, pool_len: usize, clock: u64, key: *const u8, key_len: usize,
        place: *mut [u64; 3],
    );

    pub fn reefcandor_incr(
        dir: *mut u64, dir_len: usize, pool: *mut u8, pool_len: usize, clock: u64, key: *const u8, key_len: usize,
        step: i64, has_initial: bool, initial: i64, lifetime: u64, answer: *mut Words,
    );

    pub fn reefcandor_delete(
        dir: *mut u64, dir_len: usize, pool: *mut u8, pool_len: usize, clock: u64, key: *const u8, key_len: usize,
        answer: *mut Words,
    );

    pub fn reefcandor_expire(
        dir: *mut u64, dir_len: usize, pool: *const u8, pool_len: usize, clock: u64, key: *const u8, key_len: usize,
        lifetime: u64, answer: *mut Words,
    );

    pub fn reefcandor_flush_all(dir: *mut u64, dir_len: usize, pool: *const u8, pool_len: usize, answer: *mut Words);

    pub fn reefcandor_flush_expired(
        dir: *mut u64, dir_len: usize, pool: *mut u8, pool_len: usize, clock: u64, maximum: u64, answer: *mut Words,
    );

    pub fn reefcandor_get_keys(
        dir: *const u64, dir_len: usize, pool: *const u8, pool_len: usize, clock: u64, maximum: u64, table: *mut u64,
        table_len: usize, answer: *mut Words,
    );
}
