//! Both programs side by side on the same memory: every call is made by both, and all that they leave is compared.

use std::panic::{catch_unwind, AssertUnwindSafe};

use crate::call::{Call, Reply};
use crate::lent::Lent;
use crate::memory::Memory;
use crate::{by_library, by_second};

/// The two programs, each with its own copy of the memory.
pub struct Duel {
    /// The memory as it was handed to the last call.
    before: Memory,
    second: Memory,
    library_dir: Lent<u64>,
    library_pool: Lent<u8>,
}

/// Where the programs differ.
#[derive(Debug)]
pub struct Difference {
    pub before: Memory,
    pub call: Call,
    /// What each program replied; None if it panicked.
    pub second: Option<Reply>,
    pub library: Option<Reply>,
    /// The first place that differs, in words.
    pub place: String,
}

impl Default for Duel {
    fn default() -> Duel {
        Duel {
            before: Memory::default(),
            second: Memory::default(),
            library_dir: Lent::new(0x5555_5555_5555_5555),
            library_pool: Lent::new(0xA5),
        }
    }
}

impl Duel {
    /// Lets both programs go on with this memory.
    pub fn load(&mut self, memory: &Memory) {
        self.second.copy(memory);
        self.library_dir.copy(&memory.dir);
        self.library_pool.copy(&memory.pool);
    }

    /// The memory as both have it.
    pub fn memory(&self) -> &Memory {
        &self.second
    }

    /// Makes the call with both, and compares the reply, all words and all bytes.
    pub fn call(&mut self, call: &Call) -> Result<Reply, Box<Difference>> {
        self.before.copy(&self.second);
        let second = caught(|| by_second::run(&mut self.second.dir, &mut self.second.pool, call));
        let library =
            caught(|| by_library::run(self.library_dir.contents_mut(), self.library_pool.contents_mut(), call));
        let place = match (&second, &library) {
            (Some(second), Some(library)) => self.first_difference(second, library),
            _ => Some(String::from("one of the programs panicked")),
        };
        match (place, second) {
            (None, Some(reply)) => Ok(reply),
            (place, second) => {
                let (before, call) = (self.before.clone(), call.clone());
                Err(Box::new(Difference { before, call, second, library, place: place.unwrap_or_default() }))
            }
        }
    }

    /// What both programs did alike and no program may do.
    pub fn objection(&self, call: &Call, reply: &Reply, place: String) -> Box<Difference> {
        let (before, call) = (self.before.clone(), call.clone());
        Box::new(Difference { before, call, second: Some(reply.clone()), library: Some(reply.clone()), place })
    }

    fn first_difference(&self, second: &Reply, library: &Reply) -> Option<String> {
        let (dir, pool) = (self.library_dir.contents(), self.library_pool.contents());
        if !self.library_dir.is_intact() {
            return Some(String::from("the library wrote past the directory"));
        }
        if !self.library_pool.is_intact() {
            return Some(String::from("the library wrote past the pool"));
        }
        if second != library {
            return Some(reply_difference(second, library));
        }
        first_unequal("word", "of the directory", &self.second.dir, dir)
            .or_else(|| first_unequal("byte", "of the pool", &self.second.pool, pool))
    }
}

/// The reply of a program, if it does not panic.
fn caught(run: impl FnOnce() -> Reply) -> Option<Reply> {
    catch_unwind(AssertUnwindSafe(run)).ok()
}

/// The first element that differs, if one does.
fn first_unequal<T: Copy + PartialEq + std::fmt::Display>(
    element: &str, of: &str, second: &[T], library: &[T],
) -> Option<String> {
    if second == library {
        return None;
    }
    let at = second.iter().zip(library).position(|(a, b)| a != b)?;
    Some(format!("{element} {at} {of}: second {}, library {}", second[at], library[at]))
}

fn reply_difference(second: &Reply, library: &Reply) -> String {
    let table = match (second, library) {
        (Reply::Listing(_, ours), Reply::Listing(_, theirs)) => first_unequal("word", "of the table", ours, theirs),
        _ => None,
    };
    let answer = match (second.answer(), library.answer()) {
        (Some(ours), Some(theirs)) => first_unequal("word", "of the answer", ours, theirs),
        _ => None,
    };
    answer.or(table).unwrap_or_else(|| String::from("the reply"))
}

#[cfg(test)]
mod tests {
    use super::*;
    use crate::call::{Args, Name};

    #[test]
    fn equal_programs_have_no_difference() {
        let mut duel = Duel::default();
        duel.load(&Memory::blank(4));
        let fresh = Call { name: Name::MakeFresh, args: Args::default() };
        assert_eq!(duel.call(&fresh).unwrap(), Reply::Answer([0; 10]));
        let args = Args { clock: 1000, key: b"AB12".to_vec(), kind: 3, number: 14200, ..Args::default() };
        assert_eq!(duel.call(&Call { name: Name::Set, args }).unwrap(), Reply::Answer([0; 10]));
        assert_eq!(duel.memory().record(0), [0, 3, 0, 0, 4, 8]);
    }

    #[test]
    fn a_differing_byte_is_found() {
        let mut duel = Duel::default();
        duel.load(&Memory::fresh(4));
        duel.library_pool.contents_mut()[77] = 1;
        let call = Call { name: Name::FlushAll, args: Args::default() };
        let difference = duel.call(&call).unwrap_err();
        assert_eq!(difference.place, "byte 77 of the pool: second 0, library 1");
        assert_eq!(difference.before, Memory::fresh(4));
    }

    #[test]
    fn a_differing_word_and_answer_are_found() {
        let mut duel = Duel::default();
        duel.load(&Memory::fresh(4));
        duel.library_dir.contents_mut()[9] = 1;
        let call = Call { name: Name::FlushAll, args: Args::default() };
        let difference = duel.call(&call).unwrap_err();
        assert_eq!(difference.place, "word 0 of the answer: second 0, library 1");
        let fresh = Call { name: Name::Audit, args: Args::default() };
        assert_eq!(duel.call(&fresh).unwrap_err().place, "the reply");
    }
}
