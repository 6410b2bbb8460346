//! A call with its arguments ready, so that nothing but the call itself is timed.

use std::hint::black_box;
use std::mem::MaybeUninit;

use reefcandor::ffi;

use crate::call::{Args, Call, Name, Words};
use crate::memory::Memory;

/// Makes the call on a memory.
pub type Ready = Box<dyn FnMut(&mut Memory)>;

/// The call by the second program.
pub fn by_second(call: &Call) -> Ready {
    let Args { clock, key, kind, number, text, lifetime, flags, step, has_initial, maximum, mut table, .. } =
        call.args.clone();
    macro_rules! ready {
        (|$memory:ident| $call:expr) => {
            Box::new(move |$memory| {
                black_box($call);
            })
        };
    }
    macro_rules! store {
        ($name:path) => {
            ready!(|m| $name(&mut m.dir, &mut m.pool, clock, black_box(&key), kind, number, &text, lifetime, flags))
        };
    }
    let initial = has_initial.then_some((number, lifetime));
    match call.name {
        Name::MakeFresh => ready!(|m| second::make_fresh(&mut m.dir, &mut m.pool)),
        Name::Audit => ready!(|m| second::audit(&m.dir, &m.pool)),
        Name::Get => ready!(|m| second::get(&mut m.dir, &mut m.pool, clock, black_box(&key))),
        Name::GetStale => ready!(|m| second::get_stale(&m.dir, &m.pool, clock, black_box(&key))),
        Name::Ttl => ready!(|m| second::ttl(&m.dir, &m.pool, clock, black_box(&key))),
        Name::Show => ready!(|m| second::show(&m.dir, &m.pool, clock, black_box(&key), b"none")),
        Name::Set => store!(second::set),
        Name::SafeSet => store!(second::safe_set),
        Name::Add => store!(second::add),
        Name::SafeAdd => store!(second::safe_add),
        Name::Replace => store!(second::replace),
        Name::Incr => ready!(|m| second::incr(&mut m.dir, &mut m.pool, clock, black_box(&key), step, initial)),
        Name::Delete => ready!(|m| second::delete(&mut m.dir, &mut m.pool, clock, black_box(&key))),
        Name::Expire => ready!(|m| second::expire(&mut m.dir, &m.pool, clock, black_box(&key), lifetime)),
        Name::FlushAll => ready!(|m| second::flush_all(&mut m.dir, &m.pool)),
        Name::FlushExpired => ready!(|m| second::flush_expired(&mut m.dir, &mut m.pool, clock, maximum)),
        Name::GetKeys => ready!(|m| second::get_keys(&m.dir, &m.pool, clock, maximum, &mut table)),
        Name::BytesAt => unreachable!("bytes_at is not timed: it only compares three numbers"),
    }
}

/// The call by the library, over its C interface.
pub fn by_library(call: &Call) -> Ready {
    let name = call.name;
    let args = call.args.clone();
    match name {
        Name::MakeFresh | Name::FlushAll | Name::FlushExpired | Name::GetKeys | Name::Audit => whole(name, args),
        Name::Set | Name::SafeSet | Name::Add | Name::SafeAdd | Name::Replace => store(name, args),
        _ => keyed(name, args),
    }
}

/// A closure over the pointers of a memory and of an answer that is not written yet, as a C caller has it.
///
/// All pointers come from buffers with their own lengths, and no two of them overlap.
macro_rules! ready {
    (|$d:ident, $dn:ident, $p:ident, $pn:ident, $answer:ident| $call:expr) => {
        Box::new(move |memory: &mut Memory| {
            let ($d, $dn) = (memory.dir.as_mut_ptr(), memory.dir.len());
            let ($p, $pn) = (memory.pool.as_mut_ptr(), memory.pool.len());
            let mut words = MaybeUninit::<Words>::uninit();
            let $answer = words.as_mut_ptr();
            unsafe { $call };
            black_box(&words);
        })
    };
}

/// The calls over the whole memory.
fn whole(name: Name, args: Args) -> Ready {
    let Args { clock, maximum, mut table, .. } = args;
    match name {
        Name::MakeFresh => ready!(|d, dn, p, pn, answer| ffi::reefcandor_make_fresh(d, dn, p, pn, answer)),
        Name::FlushAll => ready!(|d, dn, p, pn, answer| ffi::reefcandor_flush_all(d, dn, p, pn, answer)),
        Name::FlushExpired => {
            ready!(|d, dn, p, pn, answer| ffi::reefcandor_flush_expired(d, dn, p, pn, clock, maximum, answer))
        }
        Name::GetKeys => ready!(|d, dn, p, pn, answer| {
            let (t, tn) = (table.as_mut_ptr(), table.len());
            ffi::reefcandor_get_keys(d, dn, p, pn, clock, maximum, t, tn, answer);
        }),
        _ => Box::new(|memory| {
            let (d, p) = (memory.dir.as_ptr(), memory.pool.as_ptr());
            black_box(unsafe { ffi::reefcandor_audit(d, memory.dir.len(), p, memory.pool.len()) });
        }),
    }
}

/// The calls that take a key and are no store.
fn keyed(name: Name, args: Args) -> Ready {
    let Args { clock, key, number, lifetime, step, has_initial, .. } = args;
    macro_rules! with_key {
        ($call:path $(, $more:expr)*) => {
            ready!(|d, dn, p, pn, answer| {
                let key = black_box(&key);
                $call(d, dn, p, pn, clock, key.as_ptr(), key.len() $(, $more)*, answer.cast());
            })
        };
    }
    match name {
        Name::Get => with_key!(ffi::reefcandor_get),
        Name::GetStale => with_key!(ffi::reefcandor_get_stale),
        Name::Ttl => with_key!(ffi::reefcandor_ttl),
        Name::Show => with_key!(ffi::reefcandor_show),
        Name::Incr => with_key!(ffi::reefcandor_incr, step, has_initial, number, lifetime),
        Name::Delete => with_key!(ffi::reefcandor_delete),
        Name::Expire => with_key!(ffi::reefcandor_expire, lifetime),
        _ => unreachable!("bytes_at is not timed: it only compares three numbers"),
    }
}

fn store(name: Name, args: Args) -> Ready {
    let Args { clock, key, kind, number, text, lifetime, flags, .. } = args;
    macro_rules! store {
        ($call:path) => {
            ready!(|d, dn, p, pn, answer| {
                let key = black_box(&key);
                let (k, kn, t, tn) = (key.as_ptr(), key.len(), text.as_ptr(), text.len());
                $call(d, dn, p, pn, clock, k, kn, kind, number, t, tn, lifetime, flags, answer);
            })
        };
    }
    match name {
        Name::Set => store!(ffi::reefcandor_set),
        Name::SafeSet => store!(ffi::reefcandor_safe_set),
        Name::Add => store!(ffi::reefcandor_add),
        Name::SafeAdd => store!(ffi::reefcandor_safe_add),
        _ => store!(ffi::reefcandor_replace),
    }
}
