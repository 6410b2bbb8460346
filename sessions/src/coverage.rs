//! What the calls of a session came to: counts by call and outcome, so that one sees that everything was reached.

use crate::call::{Call, Name, Reply, Words, NAMES};

/// Outcomes 0 to 12.
const OUTCOMES: usize = 13;
/// "at most 30 rounds"
const MOST_ROUNDS: usize = 30;
/// The most that thirty rounds take: an entry and up to two dead ones each.
const MOST_TAKEN: usize = 3 * MOST_ROUNDS;
/// From so many calls on everything has to be reached, but for
const ENOUGH: u64 = 100_000;
/// every single number of rounds, which takes so many.
const ENOUGH_FOR_EACH_ROUND: u64 = 300_000;

/// What the memory of a call was.
#[derive(Clone, Copy, Debug, PartialEq, Eq)]
pub enum Scene {
    /// Made by make_fresh and the calls after it.
    Fresh,
    /// Begun with a memory made by hand, sound, with equal keys and dead ones anywhere.
    HandMade,
    /// A sound memory in which something was changed.
    Changed,
    /// Any lengths and contents.
    Wild,
}

const SCENES: [&str; 4] = ["fresh", "hand-made", "changed", "wild"];

/// The counts of one call.
#[derive(Clone, Copy, Default)]
struct Counts {
    outcomes: [u64; OUTCOMES],
    /// audit's no and yes, show's notice and text, bytes_at's empty part and others.
    verdicts: [u64; 2],
    scenes: [u64; SCENES.len()],
    /// Stored after so many rounds.
    rounds: [u64; MOST_ROUNDS + 1],
    /// 12, and more entries are left than thirty rounds could have taken.
    spared: u64,
    /// Stored after rounds, without and with the forced mark.
    forced: [u64; 2],
    stale: [u64; 2],
    removed: u64,
    most_removed: u64,
}

/// The counts of all calls, in the order of [`NAMES`].
#[derive(Default)]
pub struct Coverage {
    calls: [Counts; NAMES.len()],
}

impl Coverage {
    /// Counts a call, its reply and the entries that it left.
    pub fn count(&mut self, scene: Scene, call: &Call, reply: &Reply, left: usize) {
        let counts = &mut self.calls[call.name as usize];
        counts.scenes[scene as usize] += 1;
        match reply {
            Reply::Answer(words) | Reply::Listing(words, _) => counts.count_answer(words, left),
            Reply::Place([found, ..]) => counts.verdicts[*found as usize] += 1,
            Reply::Part(part) => counts.verdicts[usize::from(*part != [0, 0])] += 1,
            Reply::Verdict(yes) => counts.verdicts[usize::from(*yes)] += 1,
        }
    }

    /// All that so many calls had to reach and did not, and all that they must not reach and did.
    pub fn failures(&self, calls: u64) -> Vec<String> {
        let mut failures: Vec<String> = Vec::new();
        if calls >= ENOUGH {
            failures.extend(NAMES.iter().zip(&self.calls).flat_map(|(&name, counts)| counts.failures(name)));
        }
        if calls >= ENOUGH_FOR_EACH_ROUND {
            let missing = (0..).zip(self.stored_after()).filter(|&(_, count)| count == 0);
            failures.extend(missing.map(|(rounds, _): (u64, _)| format!("nothing was stored after {rounds} rounds")));
        }
        failures
    }

    /// How many entries were stored after so many rounds, by all calls that may run them.
    fn stored_after(&self) -> [u64; MOST_ROUNDS + 1] {
        let mut stored = [0; MOST_ROUNDS + 1];
        for (_, counts) in self.running_rounds() {
            for (sum, count) in stored.iter_mut().zip(counts.rounds) {
                *sum += count;
            }
        }
        stored
    }

    fn running_rounds(&self) -> impl Iterator<Item = (Name, &Counts)> {
        NAMES.into_iter().zip(&self.calls).filter(|(name, _)| name.runs_rounds())
    }

    /// The counts as lines.
    pub fn print(&self) {
        self.print_outcomes();
        println!("\n{:14}{:>10}{:>10}{:>10}{:>10}", "memory", SCENES[0], SCENES[1], SCENES[2], SCENES[3]);
        for (name, counts) in NAMES.iter().zip(&self.calls) {
            let cells: String = counts.scenes.iter().map(|count| format!("{count:>10}")).collect();
            println!("{:14}{cells}", name.text());
        }
        self.print_rounds();
        let removed: u64 = self.calls.iter().map(|counts| counts.removed).sum();
        let most = self.running_rounds().map(|(_, counts)| counts.most_removed).max().unwrap_or(0);
        println!("answers with removed above 0: {removed}; the most that a store removed: {most}");
        let [fresh, stale] = self.calls[Name::GetStale as usize].stale;
        println!("get_stale's answers without and with the stale mark: {fresh}, {stale}");
    }

    fn print_rounds(&self) {
        println!(
            "\n{:14}{:>9}{:>9}{:>9}{:>9}{:>16}{:>9}",
            "rounds", "0", "1", "2 to 29", "30", "12, none taken", "forced"
        );
        for (name, counts) in self.running_rounds() {
            let rounds = &counts.rounds;
            let some: u64 = rounds[2..MOST_ROUNDS].iter().sum();
            let (none, one, all) = (rounds[0], rounds[1], rounds[MOST_ROUNDS]);
            let (spared, forced) = (counts.spared, counts.forced[1]);
            println!("{:14}{none:>9}{one:>9}{some:>9}{all:>9}{spared:>16}{forced:>9}", name.text());
        }
        let stored: Vec<String> = self.stored_after().iter().map(u64::to_string).collect();
        println!("\nstored after 0 to 30 rounds: {}", stored.join(" "));
    }

    fn print_outcomes(&self) {
        let head: String = (0..OUTCOMES).map(|outcome| format!("{outcome:>7}")).collect();
        println!("{:14}{head}{:>8}{:>8}", "outcome", "no", "yes");
        for (name, counts) in NAMES.iter().zip(&self.calls) {
            let cells: String = counts.outcomes.iter().map(|&count| cell(count, 7)).collect();
            let verdicts: String = counts.verdicts.iter().map(|&count| cell(count, 8)).collect();
            println!("{:14}{cells}{verdicts}", name.text());
        }
    }
}

/// A count in a column, a dot for none.
fn cell(count: u64, width: usize) -> String {
    let text = if count == 0 { String::from(".") } else { count.to_string() };
    format!("{text:>width$}")
}

impl Counts {
    fn count_answer(&mut self, words: &Words, left: usize) {
        let [outcome, rounds, removed, forced, stale, ..] = *words;
        self.outcomes[outcome as usize] += 1;
        self.forced[forced as usize] += u64::from(outcome == 0 && rounds > 0);
        self.stale[stale as usize] += u64::from(outcome == 0);
        self.removed += u64::from(removed > 0);
        self.most_removed = self.most_removed.max(removed);
        match outcome {
            0 => self.rounds[rounds as usize] += 1,
            12 => self.spared += u64::from(left > MOST_TAKEN),
            _ => {}
        }
    }

    fn failures(&self, name: Name) -> Vec<String> {
        let mut missing = Vec::new();
        let allowed = name.outcomes();
        for (outcome, &count) in (0..).zip(&self.outcomes) {
            match (allowed.contains(&outcome), count) {
                (true, 0) => missing.push(format!("outcome {outcome} was not reached")),
                (false, 1..) => missing.push(format!("outcome {outcome} is none of this call's")),
                _ => {}
            }
        }
        if allowed.is_empty() && self.verdicts.contains(&0) {
            missing.push(String::from("yes and no were not both reached"));
        }
        if self.scenes.contains(&0) {
            missing.push(String::from("a kind of memory was not met"));
        }
        if name.runs_rounds() {
            missing.extend(self.missing_rounds());
        }
        if name == Name::GetStale && self.stale.contains(&0) {
            missing.push(String::from("stale 0 and 1 were not both reached"));
        }
        if matches!(name, Name::Get | Name::Delete | Name::FlushExpired) && self.removed == 0 {
            missing.push(String::from("nothing was removed"));
        }
        missing.into_iter().map(|what| format!("{}: {what}", name.text())).collect()
    }

    fn missing_rounds(&self) -> Vec<String> {
        let reached = [
            ("no round", self.rounds[0] > 0),
            ("one round", self.rounds[1] > 0),
            ("2 to 29 rounds", self.rounds[2..MOST_ROUNDS].iter().any(|&count| count > 0)),
            ("30 rounds", self.rounds[MOST_ROUNDS] > 0),
            ("12 that spared 30 rounds", self.spared > 0),
            ("rounds that took a live entry, and ones that took none", !self.forced.contains(&0)),
            ("removed above 0", self.removed > 0),
        ];
        reached.iter().filter(|(_, was)| !was).map(|(what, _)| format!("{what}: not reached")).collect()
    }
}

#[cfg(test)]
mod tests {
    use super::*;
    use crate::call::Args;

    #[test]
    fn what_is_missing_and_what_is_not_allowed_is_told() {
        let mut coverage = Coverage::default();
        let call = Call { name: Name::FlushAll, args: Args::default() };
        for scene in [Scene::Fresh, Scene::HandMade, Scene::Changed, Scene::Wild] {
            coverage.count(scene, &call, &Reply::Answer([0; 10]), 0);
        }
        let failures = |coverage: &Coverage| -> Vec<String> {
            coverage.failures(ENOUGH).into_iter().filter(|line| line.starts_with("flush_all")).collect()
        };
        assert_eq!(failures(&coverage), ["flush_all: outcome 1 was not reached"]);
        coverage.count(Scene::Fresh, &call, &Reply::Answer([1, 0, 0, 0, 0, 0, 0, 0, 0, 0]), 0);
        assert!(failures(&coverage).is_empty());
        coverage.count(Scene::Fresh, &call, &Reply::Answer([2, 0, 0, 0, 0, 0, 0, 0, 0, 0]), 0);
        assert_eq!(failures(&coverage), ["flush_all: outcome 2 is none of this call's"]);
    }
}
