//! A call made by the independent second program.

use second::Answer;

use crate::call::{Args, Call, Name, Reply, Words};

/// The caller's own notice, for show: no part of any pool.
pub static NOTICE: &[u8] = b"no text";

/// Makes the call.
pub fn run(dir: &mut [u64], pool: &mut [u8], call: &Call) -> Reply {
    let args = &call.args;
    let (clock, key) = (args.clock, &args.key[..]);
    match call.name {
        Name::MakeFresh => Reply::Answer(words(&second::make_fresh(dir, pool))),
        Name::Audit => Reply::Verdict(second::audit(dir, pool)),
        Name::Get => Reply::Answer(words(&second::get(dir, pool, clock, key))),
        Name::GetStale => Reply::Answer(words(&second::get_stale(dir, pool, clock, key))),
        Name::Ttl => Reply::Answer(words(&second::ttl(dir, pool, clock, key))),
        Name::BytesAt => Reply::Part(part(pool, second::bytes_at(pool, args.offset, args.length))),
        Name::Show => Reply::Place(place(pool, second::show(dir, pool, clock, key, NOTICE))),
        Name::Set | Name::SafeSet | Name::Add | Name::SafeAdd | Name::Replace => {
            Reply::Answer(words(&store(call.name, dir, pool, args)))
        }
        Name::Incr => {
            let initial = args.has_initial.then_some((args.number, args.lifetime));
            Reply::Answer(words(&second::incr(dir, pool, clock, key, args.step, initial)))
        }
        Name::Delete => Reply::Answer(words(&second::delete(dir, pool, clock, key))),
        Name::Expire => Reply::Answer(words(&second::expire(dir, pool, clock, key, args.lifetime))),
        Name::FlushAll => Reply::Answer(words(&second::flush_all(dir, pool))),
        Name::FlushExpired => Reply::Answer(words(&second::flush_expired(dir, pool, clock, args.maximum))),
        Name::GetKeys => {
            let mut table = args.table.clone();
            let answer = second::get_keys(dir, pool, clock, args.maximum, &mut table);
            Reply::Listing(words(&answer), table)
        }
    }
}

fn store(name: Name, dir: &mut [u64], pool: &mut [u8], args: &Args) -> Answer {
    let call = match name {
        Name::Set => second::set,
        Name::SafeSet => second::safe_set,
        Name::Add => second::add,
        Name::SafeAdd => second::safe_add,
        _ => second::replace,
    };
    call(dir, pool, args.clock, &args.key, args.kind, args.number, &args.text, args.lifetime, args.flags)
}

/// The ten words of an answer, in the header's order. A count of ttl and get_keys stands in the number's place; the
/// other of both is 0.
pub fn words(answer: &Answer) -> Words {
    assert!(answer.count == 0 || answer.number == 0, "an answer tells a number or a count");
    [
        u64::from(answer.outcome),
        answer.rounds,
        answer.removed,
        u64::from(answer.forced),
        u64::from(answer.stale),
        u64::from(answer.kind),
        u64::from(answer.flags),
        answer.number as u64 | answer.count,
        answer.offset,
        answer.length,
    ]
}

/// Where a part of the pool begins, and its length.
fn part(pool: &[u8], part: &[u8]) -> [u64; 2] {
    [(part.as_ptr() as usize - pool.as_ptr() as usize) as u64, part.len() as u64]
}

/// 1 and the place of a shown text; or three times 0 where the notice is shown.
fn place(pool: &[u8], shown: &[u8]) -> [u64; 3] {
    if std::ptr::eq(shown, NOTICE) {
        return [0, 0, 0];
    }
    let [offset, length] = part(pool, shown);
    [1, offset, length]
}
