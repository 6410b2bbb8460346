//! Long random sessions: scenes that follow one another, each with a memory, keys and a clock, and calls in it.

use crate::arguments;
use crate::call::{Call, Name, Reply, NAMES};
use crate::corrupt;
use crate::coverage::{Coverage, Scene};
use crate::duel::{Difference, Duel};
use crate::handmade;
use crate::keys::Keys;
use crate::memory::{Memory, CELL, MOST_CELLS};
use crate::random::Random;

/// How often each call comes in a sound memory. Those that empty the memory are rare, so that it fills up.
const WEIGHTS: [(usize, Name); 18] = [
    (1, Name::MakeFresh),
    (8, Name::Audit),
    (16, Name::Get),
    (10, Name::GetStale),
    (10, Name::Ttl),
    (6, Name::BytesAt),
    (8, Name::Show),
    (26, Name::Set),
    (14, Name::SafeSet),
    (22, Name::Add),
    (12, Name::SafeAdd),
    (20, Name::Replace),
    (22, Name::Incr),
    (8, Name::Delete),
    (10, Name::Expire),
    (1, Name::FlushAll),
    (2, Name::FlushExpired),
    (6, Name::GetKeys),
];

/// A session under way.
pub struct Session {
    random: Random,
    duel: Duel,
    keys: Keys,
    clock: u64,
    scene: Scene,
    /// Calls made in this scene, and how many it has.
    made: usize,
    calls: usize,
    /// While a change is made in the memory: the sound one, and the calls until it comes back.
    sound: Option<(Memory, usize)>,
    coverage: Coverage,
}

impl Session {
    /// The session of a seed.
    pub fn new(seed: u64) -> Session {
        let mut random = Random::new(seed);
        let keys = Keys::new(&mut random, 1);
        Session {
            random,
            duel: Duel::default(),
            keys,
            clock: 1,
            scene: Scene::Wild,
            made: 0,
            calls: 0,
            sound: None,
            coverage: Coverage::default(),
        }
    }

    /// What was reached so far.
    pub fn coverage(&self) -> &Coverage {
        &self.coverage
    }

    /// Makes the next call with both programs.
    pub fn step(&mut self) -> Result<(), Box<Difference>> {
        if self.made == self.calls {
            self.change_scene();
        }
        self.change_or_restore();
        let name = self.next_name();
        let clock = self.next_clock();
        let call = arguments::draw(&mut self.random, name, self.duel.memory(), &self.keys, clock);
        let reply = self.duel.call(&call)?;
        let scene = if self.sound.is_some() { Scene::Changed } else { self.scene };
        if scene == Scene::Fresh {
            self.look_for_left_over(&call, &reply)?;
        }
        self.coverage.count(scene, &call, &reply, self.duel.memory().count());
        self.made += 1;
        Ok(())
    }

    /// From a fresh memory on nothing is left in the pool of an entry that has gone.
    fn look_for_left_over(&self, call: &Call, reply: &Reply) -> Result<(), Box<Difference>> {
        match self.duel.memory().left_over() {
            None => Ok(()),
            Some(at) => Err(self.duel.objection(call, reply, format!("byte {at} of the pool is no entry's and not 0"))),
        }
    }

    fn change_scene(&mut self) {
        self.sound = None;
        self.scene = self.random.weighted(&[(30, Scene::Fresh), (45, Scene::HandMade), (25, Scene::Wild)]);
        let cells = self.draw_cells();
        self.keys = Keys::new(&mut self.random, cells);
        self.clock = self.draw_clock();
        let memory = match self.scene {
            Scene::Fresh => {
                let blank = Memory::blank(cells);
                Memory { dir: self.random.words(blank.dir.len()), pool: self.random.bytes(CELL * cells) }
            }
            Scene::HandMade => handmade::memory(&mut self.random, cells, &self.keys, self.clock),
            Scene::Wild | Scene::Changed => corrupt::wild(&mut self.random),
        };
        self.duel.load(&memory);
        self.made = 0;
        self.calls = match self.scene {
            Scene::Wild => self.random.between(1, 30),
            Scene::HandMade => self.random.between(10, if cells >= arguments::MANY { 400 } else { 100 }),
            _ => self.random.between(20, 250),
        };
    }

    /// Small pools mostly, where each store evicts; the largest one regularly.
    fn draw_cells(&mut self) -> usize {
        match self.random.below(20) {
            0..=11 => self.random.between(1, 12),
            12..=13 => self.random.between(13, 63),
            14..=16 => 64,
            17 => self.random.between(65, MOST_CELLS - 1),
            _ => MOST_CELLS,
        }
    }

    fn draw_clock(&mut self) -> u64 {
        match self.random.below(20) {
            0 => u64::MAX - self.random.below(300) as u64,
            1 => self.random.word() | 1,
            2 => 1,
            _ => self.random.between(1, 5000) as u64,
        }
    }

    /// Changes something in a sound memory for some calls, and then brings the sound one back.
    fn change_or_restore(&mut self) {
        match &mut self.sound {
            Some((memory, 0)) => {
                self.duel.load(memory);
                self.sound = None;
            }
            Some((_, left)) => *left -= 1,
            None if self.made > 0 && self.scene != Scene::Wild && self.random.chance(4) => {
                let sound = self.duel.memory().clone();
                let mut changed = sound.clone();
                corrupt::change(&mut self.random, &mut changed);
                self.duel.load(&changed);
                self.sound = Some((sound, self.random.below(6)));
            }
            None => {}
        }
    }

    fn next_name(&mut self) -> Name {
        match self.scene {
            Scene::Fresh if self.made == 0 => return Name::MakeFresh,
            // before anything changes: are all keys of a memory made by hand different?
            Scene::HandMade if self.made == 0 => return Name::Audit,
            _ => {}
        }
        // where nearly all calls are refused alike, each comes as often
        if self.sound.is_some() || self.scene == Scene::Wild {
            return self.random.pick(&NAMES);
        }
        self.random.weighted(&WEIGHTS)
    }

    /// The clock grows slowly, and goes back at times; 0 and the last one are for one call each.
    fn next_clock(&mut self) -> u64 {
        match self.random.below(100) {
            0..=1 => return 0,
            2 => return u64::MAX,
            3..=5 => self.clock = self.clock.saturating_sub(self.random.below(120) as u64).max(1),
            6..=15 => self.clock = self.clock.saturating_add(self.random.below(40) as u64),
            16..=70 => self.clock = self.clock.saturating_add(self.random.below(3) as u64),
            _ => {}
        }
        self.clock
    }
}

#[cfg(test)]
mod tests {
    use super::*;
    use crate::call::Args;

    #[test]
    fn a_byte_left_of_an_entry_is_objected_to() {
        let mut session = Session::new(1);
        let mut memory = Memory::fresh(2);
        memory.pool[40] = 7;
        session.duel.load(&memory);
        let call = Call { name: Name::FlushAll, args: Args::default() };
        let reply = session.duel.call(&call).unwrap();
        let objection = session.look_for_left_over(&call, &reply).unwrap_err();
        assert_eq!(objection.place, "byte 40 of the pool is no entry's and not 0");
        assert_eq!(objection.before, memory);
    }
}
