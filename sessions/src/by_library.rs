//! A call made by the proved library, over its C interface.

use reefcandor::ffi;

use crate::call::{Args, Call, Name, Reply, Words};
use crate::lent::Lent;

/// Stands in every word of an answer before the call, so that a word which is not written is seen.
const UNWRITTEN: u64 = 0xDEAD_BEEF_DEAD_BEEF;

/// Makes the call.
pub fn run(dir: &mut [u64], pool: &mut [u8], call: &Call) -> Reply {
    match call.name {
        Name::Audit => Reply::Verdict(audit(dir, pool)),
        Name::BytesAt => Reply::Part(bytes_at(pool, &call.args)),
        Name::Show => Reply::Place(show(dir, pool, &call.args)),
        Name::GetKeys => {
            let mut table = Lent::new(UNWRITTEN);
            table.copy(&call.args.table);
            let answer = get_keys(dir, pool, &call.args, table.contents_mut());
            assert!(table.is_intact(), "the library wrote past the table");
            Reply::Listing(answer, table.contents().to_vec())
        }
        Name::Get | Name::GetStale | Name::Ttl | Name::Delete => Reply::Answer(keyed(call.name, dir, pool, &call.args)),
        Name::Incr => Reply::Answer(incr(dir, pool, &call.args)),
        Name::Expire | Name::FlushExpired | Name::FlushAll | Name::MakeFresh => {
            Reply::Answer(upkeep(call.name, dir, pool, &call.args))
        }
        Name::Set | Name::SafeSet | Name::Add | Name::SafeAdd | Name::Replace => {
            Reply::Answer(store(call.name, dir, pool, &call.args))
        }
    }
}

// In each of the blocks below the pointers come from slices with their own lengths, so they are aligned, not null and
// good for those lengths; and the borrows keep buffers that are written apart from all others.

fn audit(dir: &[u64], pool: &[u8]) -> bool {
    unsafe { ffi::reefcandor_audit(dir.as_ptr(), dir.len(), pool.as_ptr(), pool.len()) }
}

fn bytes_at(pool: &[u8], args: &Args) -> [u64; 2] {
    let mut place = [UNWRITTEN; 2];
    unsafe { ffi::reefcandor_bytes_at(pool.as_ptr(), pool.len(), args.offset, args.length, &mut place) };
    place
}

fn show(dir: &[u64], pool: &[u8], args: &Args) -> [u64; 3] {
    let mut place = [UNWRITTEN; 3];
    let (d, p, k) = (dir.as_ptr(), pool.as_ptr(), args.key.as_ptr());
    unsafe { ffi::reefcandor_show(d, dir.len(), p, pool.len(), args.clock, k, args.key.len(), &mut place) };
    place
}

fn get_keys(dir: &[u64], pool: &[u8], args: &Args, table: &mut [u64]) -> Words {
    let mut answer = [UNWRITTEN; 10];
    let (d, p, t) = (dir.as_ptr(), pool.as_ptr(), table.as_mut_ptr());
    let (clock, maximum) = (args.clock, args.maximum);
    unsafe { ffi::reefcandor_get_keys(d, dir.len(), p, pool.len(), clock, maximum, t, table.len(), &mut answer) };
    answer
}

/// The calls that take a clock and a key and no more.
fn keyed(name: Name, dir: &mut [u64], pool: &mut [u8], args: &Args) -> Words {
    let mut answer = [UNWRITTEN; 10];
    let (d, dn, p, pn) = (dir.as_mut_ptr(), dir.len(), pool.as_mut_ptr(), pool.len());
    let (clock, k, kn) = (args.clock, args.key.as_ptr(), args.key.len());
    unsafe {
        match name {
            Name::Get => ffi::reefcandor_get(d, dn, p, pn, clock, k, kn, &mut answer),
            Name::GetStale => ffi::reefcandor_get_stale(d, dn, p, pn, clock, k, kn, &mut answer),
            Name::Ttl => ffi::reefcandor_ttl(d, dn, p, pn, clock, k, kn, &mut answer),
            _ => ffi::reefcandor_delete(d, dn, p, pn, clock, k, kn, &mut answer),
        }
    }
    answer
}

fn store(name: Name, dir: &mut [u64], pool: &mut [u8], args: &Args) -> Words {
    let call: ffi::Store = match name {
        Name::Set => ffi::reefcandor_set,
        Name::SafeSet => ffi::reefcandor_safe_set,
        Name::Add => ffi::reefcandor_add,
        Name::SafeAdd => ffi::reefcandor_safe_add,
        _ => ffi::reefcandor_replace,
    };
    let mut answer = [UNWRITTEN; 10];
    let (d, dn, p, pn) = (dir.as_mut_ptr(), dir.len(), pool.as_mut_ptr(), pool.len());
    let (clock, k, kn) = (args.clock, args.key.as_ptr(), args.key.len());
    let (kind, number, t, tn) = (args.kind, args.number, args.text.as_ptr(), args.text.len());
    unsafe { call(d, dn, p, pn, clock, k, kn, kind, number, t, tn, args.lifetime, args.flags, &mut answer) };
    answer
}

fn incr(dir: &mut [u64], pool: &mut [u8], args: &Args) -> Words {
    let mut answer = [UNWRITTEN; 10];
    let (d, dn, p, pn) = (dir.as_mut_ptr(), dir.len(), pool.as_mut_ptr(), pool.len());
    let (clock, k, kn) = (args.clock, args.key.as_ptr(), args.key.len());
    let (step, has_initial, initial, lifetime) = (args.step, args.has_initial, args.number, args.lifetime);
    unsafe { ffi::reefcandor_incr(d, dn, p, pn, clock, k, kn, step, has_initial, initial, lifetime, &mut answer) };
    answer
}

/// The calls that look after an expiry or the memory as a whole.
fn upkeep(name: Name, dir: &mut [u64], pool: &mut [u8], args: &Args) -> Words {
    let mut answer = [UNWRITTEN; 10];
    let (d, dn, p, pn) = (dir.as_mut_ptr(), dir.len(), pool.as_mut_ptr(), pool.len());
    let (clock, k, kn) = (args.clock, args.key.as_ptr(), args.key.len());
    unsafe {
        match name {
            Name::Expire => ffi::reefcandor_expire(d, dn, p, pn, clock, k, kn, args.lifetime, &mut answer),
            Name::FlushExpired => ffi::reefcandor_flush_expired(d, dn, p, pn, clock, args.maximum, &mut answer),
            Name::FlushAll => ffi::reefcandor_flush_all(d, dn, p, pn, &mut answer),
            _ => ffi::reefcandor_make_fresh(d, dn, p, pn, &mut answer),
        }
    }
    answer
}
