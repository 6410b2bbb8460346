//! Times of the library's calls and of replay's lines beside those of the second program: tables on standard output,
//! docs/BENCHMARKS.md and docs/benchmarks.svg. With --quick or --rows nothing is written; with --quick the last line is
//! 'N passed, M failed'.

use std::env;
use std::fs;
use std::io;
use std::path::Path;
use std::process::ExitCode;
use std::time::Duration;

use sessions::bench::plot;
use sessions::bench::replay::{self, LineTimer, LineTimes};
use sessions::bench::report::{self, Measured};
use sessions::bench::rows::{rows, Row, SIZES};
use sessions::bench::timing::Timer;
use sessions::duel::Duel;

const USAGE: &str =
    "usage: bench [--quick] [--rows FILTER]    (FILTER: a part of a row's call, as \"get: miss\", or of \"replay\")";
const FOLDER: &str = concat!(env!("CARGO_MANIFEST_DIR"), "/../docs");

/// How long all is timed.
struct Length {
    /// All rows are timed in turn, so many times: what else the machine does then falls on all of them.
    turns: usize,
    /// For a call, in each turn.
    call: Duration,
    /// For replay, in each turn.
    replay: Duration,
    /// How many lines are replayed at a time.
    lines: usize,
}

const LONG: Length =
    Length { turns: 8, call: Duration::from_millis(50), replay: Duration::from_millis(500), lines: 100_000 };
const SHORT: Length =
    Length { turns: 1, call: Duration::from_millis(5), replay: Duration::from_millis(50), lines: 5_000 };

#[derive(Default)]
struct Options {
    quick: bool,
    filter: Option<String>,
}

/// All that was measured.
struct Figures {
    calls: Vec<Measured>,
    replay: Vec<LineTimes>,
}

fn main() -> ExitCode {
    let Some(options) = options(env::args().skip(1)) else {
        eprintln!("{USAGE}");
        return ExitCode::from(2);
    };
    match run(&options) {
        Ok(code) => code,
        Err(error) => {
            eprintln!("bench: {error}");
            ExitCode::FAILURE
        }
    }
}

fn run(options: &Options) -> io::Result<ExitCode> {
    let figures = measure(options)?;
    report::print(&figures.calls);
    report::print_replay(&figures.replay);
    if options.quick {
        return Ok(smoke(&figures, options));
    }
    write(&figures, options)?;
    Ok(ExitCode::SUCCESS)
}

/// The options, if all of them are understood.
fn options(mut args: impl Iterator<Item = String>) -> Option<Options> {
    let mut options = Options::default();
    while let Some(arg) = args.next() {
        match &arg[..] {
            "--quick" => options.quick = true,
            "--rows" => options.filter = Some(args.next()?),
            _ => return None,
        }
    }
    Some(options)
}

/// Times all that the filter lets through.
fn measure(options: &Options) -> io::Result<Figures> {
    let fits = |label: &str| label.contains(options.filter.as_deref().unwrap_or_default());
    let length = if options.quick { SHORT } else { LONG };
    let mut replays = if fits(replay::LABEL) { line_timers(length.lines)? } else { Vec::new() };
    let rows: Vec<Row> = SIZES.into_iter().flat_map(rows).filter(|row| fits(&row.label())).collect();
    rows.iter().for_each(check);
    let mut timers: Vec<Timer> = rows.iter().map(|row| Timer::new(row.memory.clone(), &row.call)).collect();
    for _ in 0..length.turns {
        timers.iter_mut().for_each(|timer| timer.run(length.call));
        replays.iter_mut().try_for_each(|timer| timer.run(length.replay))?;
    }
    let calls = rows.into_iter().zip(&mut timers).map(|(row, timer)| Measured { row, times: timer.times() }).collect();
    Ok(Figures { calls, replay: replays.iter_mut().map(LineTimer::times).collect() })
}

/// Replay in each size of the pool.
fn line_timers(lines: usize) -> io::Result<Vec<LineTimer>> {
    replay::program_is_there()?;
    SIZES.into_iter().map(|cells| LineTimer::new(cells, lines)).collect()
}

/// Both programs make the call alike, and it meets what the row says.
fn check(row: &Row) {
    let mut duel = Duel::default();
    duel.load(&row.memory);
    let reply = duel.call(&row.call).unwrap_or_else(|difference| panic!("{}: {}", row.label(), difference.place));
    let (met, expected) = (reply.answer().map(|words| (words[0], words[1])), row.answer);
    assert!(expected.is_none() || met == expected, "{}: answers {met:?} and not {expected:?}", row.label());
}

/// Every row has to have a time.
fn smoke(figures: &Figures, options: &Options) -> ExitCode {
    let Figures { calls, replay } = figures;
    let all = || SIZES.into_iter().map(|cells| rows(cells).len() + 1).sum();
    let expected = if options.filter.is_none() { all() } else { calls.len() + replay.len() };
    let timed_calls = calls.iter().filter(|one| one.times.library > 0.0 && one.times.second > 0.0).count();
    let timed_lines = replay.iter().filter(|one| one.program > 0.0 && one.second > 0.0 && one.calls > 0.0).count();
    let timed = timed_calls + timed_lines;
    println!("{timed} passed, {} failed", expected - timed);
    if timed == expected {
        ExitCode::SUCCESS
    } else {
        ExitCode::FAILURE
    }
}

fn write(figures: &Figures, options: &Options) -> io::Result<()> {
    if options.filter.is_some() {
        return Ok(());
    }
    let Figures { calls, replay } = figures;
    fs::write(Path::new(FOLDER).join("BENCHMARKS.md"), report::markdown(calls, replay))?;
    fs::write(Path::new(FOLDER).join("benchmarks.svg"), plot::svg(calls))
}
