//! The time of a replay line: by the proved program, by the second program, and of the same calls through the C
//! interface without any reading or printing.

use std::fs;
use std::hint::black_box;
use std::io;
use std::path::{Path, PathBuf};
use std::process::{self, Command, Stdio};
use std::time::{Duration, Instant};

use crate::bench::lines::Lines;
use crate::bench::timing::quiet_medians;
use crate::memory::Memory;

/// What a filter of rows has to fit.
pub const LABEL: &str = "replay";

const PROGRAM: &str = concat!(env!("CARGO_MANIFEST_DIR"), "/../crates/replay_main/out/replay_main");
/// An input without a line.
const EMPTY: &str = "/dev/null";
/// The least number of turns in a run.
const LEAST_TURNS: usize = 2;

/// Nanoseconds a line, over so many lines in a pool of so many cells.
pub struct LineTimes {
    pub cells: usize,
    pub lines: usize,
    pub program: f64,
    pub second: f64,
    /// The checked calls.
    pub calls: f64,
}

/// The turns so far.
pub struct LineTimer {
    cells: usize,
    lines: Lines,
    input: Vec<u8>,
    output: Vec<u8>,
    file: Temporary,
    /// The program on the lines and on an empty input, the second program, the checked calls.
    turns: Vec<[f64; 4]>,
}

impl LineTimer {
    /// So many lines, once all three have given the same for them.
    pub fn new(cells: usize, count: usize) -> io::Result<LineTimer> {
        let lines = Lines::new(cells, count);
        let input = lines.input();
        let file = Temporary::new(&format!("reefcandor-bench-{}-{cells}", process::id()), &input)?;
        let output = second::replay::replay(&input);
        let timer = LineTimer { cells, lines, input, output, file, turns: Vec::new() };
        timer.check("the checked calls", &timer.lines.output())?;
        timer.program_time()?;
        Ok(timer)
    }

    /// Goes on for this time.
    pub fn run(&mut self, budget: Duration) -> io::Result<()> {
        let begin = Instant::now();
        let least = self.turns.len() + LEAST_TURNS;
        while self.turns.len() < least || begin.elapsed() < budget {
            let (_, empty) = replay(Path::new(EMPTY))?;
            let turn = [self.program_time()?, empty, self.second_time(), self.calls_time()];
            self.turns.push(turn);
        }
        Ok(())
    }

    /// The quiet medians of the turns, without the program's start.
    pub fn times(&mut self) -> LineTimes {
        let [program, empty, second, calls] = quiet_medians(&mut self.turns);
        let (cells, lines) = (self.cells, self.lines.count());
        let [program, second, calls] = [program - empty, second, calls].map(|time| (time / lines as f64).max(0.1));
        LineTimes { cells, lines, program, second, calls }
    }

    /// Nanoseconds of the program, whose output is compared each time.
    fn program_time(&self) -> io::Result<f64> {
        let (output, time) = replay(&self.file.path)?;
        self.check("the replay program", &output)?;
        Ok(time)
    }

    fn second_time(&self) -> f64 {
        let begin = Instant::now();
        let output = second::replay::replay(black_box(&self.input));
        let time = begin.elapsed();
        black_box(output);
        time.as_nanos() as f64
    }

    fn calls_time(&self) -> f64 {
        let mut memory = Memory::blank(self.cells);
        let begin = Instant::now();
        self.lines.call(&mut memory, |answer| {
            black_box(answer);
        });
        begin.elapsed().as_nanos() as f64
    }

    /// The second program's output, whole.
    fn check(&self, who: &str, output: &[u8]) -> io::Result<()> {
        if output == self.output {
            return Ok(());
        }
        let same = output.split(|&byte| byte == b'\n').zip(self.output.split(|&byte| byte == b'\n'));
        let line = same.take_while(|(one, other)| one == other).count();
        Err(io::Error::other(format!("replay at P = {}: {who} differs in line {line} of the output", self.cells)))
    }
}

/// Fails where the program has not been built.
pub fn program_is_there() -> io::Result<()> {
    if Path::new(PROGRAM).exists() {
        return Ok(());
    }
    let text = "crates/replay_main/out/replay_main is not there: run `rt run </dev/null` in crates/replay_main";
    Err(io::Error::new(io::ErrorKind::NotFound, text))
}

/// The program's output for a file, through a pipe, and the nanoseconds from its start to its end.
fn replay(file: &Path) -> io::Result<(Vec<u8>, f64)> {
    let mut command = Command::new(PROGRAM);
    command.arg(file).stdin(Stdio::null()).stderr(Stdio::inherit());
    let begin = Instant::now();
    let done = command.output()?;
    let time = begin.elapsed().as_nanos() as f64;
    if !done.status.success() {
        return Err(io::Error::other(format!("the replay program ended with {}", done.status)));
    }
    Ok((done.stdout, time))
}

/// A file in the system's temporary folder, for as long as this lives.
struct Temporary {
    path: PathBuf,
}

impl Temporary {
    fn new(name: &str, contents: &[u8]) -> io::Result<Temporary> {
        let file = Temporary { path: std::env::temp_dir().join(name) };
        fs::write(&file.path, contents)?;
        Ok(file)
    }
}

impl Drop for Temporary {
    fn drop(&mut self) {
        // nobody is left to be told
        let _ = fs::remove_file(&self.path);
    }
}
