//! The times as tables on standard output and as docs/BENCHMARKS.md.

use std::fs;

use crate::bench::replay::LineTimes;
use crate::bench::rows::{Row, SIZES};
use crate::bench::timing::Times;

/// A row with its times.
pub struct Measured {
    pub row: Row,
    pub times: Times,
}

/// The soundness test's time on the memory of a row, of both programs.
fn soundness(measured: &[Measured], row: &Row) -> Option<Times> {
    let alone = |other: &&Measured| {
        other.row.case == "soundness test alone" && other.row.cells == row.cells && other.row.state == row.state
    };
    measured.iter().find(alone).map(|other| other.times)
}

/// How much of a row's time the soundness test takes, in percent. Make fresh does not test.
fn shares(measured: &[Measured], one: &Measured) -> Option<(f64, f64)> {
    let test = soundness(measured, &one.row).filter(|_| one.row.call.name.text() != "make_fresh")?;
    Some((100.0 * test.library / one.times.library, 100.0 * test.second / one.times.second))
}

/// The table of the calls, for standard output.
pub fn print(measured: &[Measured]) {
    println!("{:>5}  {:6} {:36}{:>12}{:>12}{:>8}", "P", "memory", "call", "library ns", "second ns", "ratio");
    for one in measured {
        let (row, times) = (&one.row, one.times);
        let (library, second) = (number(times.library), number(times.second));
        println!(
            "{:>5}  {:6} {:36}{library:>12}{second:>12}{:>8.2}",
            row.cells,
            row.state,
            one.row.label(),
            times.ratio()
        );
    }
}

/// The table of replay, for standard output.
pub fn print_replay(replay: &[LineTimes]) {
    if replay.is_empty() {
        return;
    }
    println!(
        "{:>5}  {:>12}{:>14}{:>12}{:>8}{:>12}{:>8}",
        "P", "replay ns", "lines/second", "second ns", "ratio", "calls ns", "ratio"
    );
    for one in replay {
        let [program, rate, second, ratio, calls, cost] = replay_columns(one);
        println!("{:>5}  {program:>12}{rate:>14}{second:>12}{ratio:>8}{calls:>12}{cost:>8}", one.cells);
    }
}

/// The time of a line and lines a second; the second program's time and the ratio; the calls' time and the ratio.
fn replay_columns(one: &LineTimes) -> [String; 6] {
    let ratio = |to: f64| format!("{:.2}", one.program / to);
    let rate = thousands((1e9 / one.program).round() as usize);
    [number(one.program), rate, number(one.second), ratio(one.second), number(one.calls), ratio(one.calls)]
}

/// Three digits at least.
fn number(nanoseconds: f64) -> String {
    if nanoseconds < 100.0 {
        format!("{nanoseconds:.1}")
    } else {
        thousands(nanoseconds.round() as usize)
    }
}

/// The whole of docs/BENCHMARKS.md.
pub fn markdown(measured: &[Measured], replay: &[LineTimes]) -> String {
    let mut text = format!("{}\nProcessor: {}.\n\n", HEAD, processor());
    text.push_str(&crowds(measured));
    text.push_str("![Ratios of the times](benchmarks.svg)\n\n## Summary\n\n");
    text.push_str(&summary(measured));
    text.push_str("\n## Where the library is slower\n\n");
    text.push_str(&slower(measured));
    text.push_str(&replay_chapter(replay));
    for cells in SIZES {
        text.push_str(&format!("\n## P = {}\n\n", thousands(cells)));
        text.push_str("| memory | call | library | second | ratio | soundness, library | soundness, second |\n");
        text.push_str("|---|---|---:|---:|---:|---:|---:|\n");
        for one in measured.iter().filter(|one| one.row.cells == cells) {
            text.push_str(&line(measured, one));
        }
    }
    text
}

const HEAD: &str = "\
# Times

Each call of the proved library, through the C interface, beside the same call of the independent second program \
(`second/`, plain Rust), in one run. Written by

    cargo run --release --offline --bin bench

in `sessions/`, which takes about two minutes and a quarter and needs the replay program (`rt run` in crates/replay_main); \
`--quick` prints a short run and writes nothing.

How it is measured: both programs run in the same process, built for release, pinned to no core. A batch is one call \
on each of some copies of the same memory (as many as stay in the nearest cache, 1 at P = 1,024), which are restored \
before the batch and outside the time taken. Batches of both programs take turns. All rows are timed eight times over, \
in turn. Other work on the machine makes both slower for a while; so the pairs of batches are sorted by the sum of \
their times, and the times here are medians over the quietest quarter of the pairs, without the time of reading the \
clock, in nanoseconds a call. A ratio below 1 means that the library is faster. Before a row is timed, both programs \
make the call, and all that they answer and leave is compared. bytes_at is not timed: it only compares three numbers.

A tight loop's time also depends on where the linker happens to put it. Between two builds the same row may move by up \
to a third, on some processors threefold, the look-up and the search for a place most of all.

The memories: plates of ten bytes with a weight (texts for show) in one cell each, none, half of the pool or all of \
it, never expiring unless the row says so; front, middle and last are places in the use order. In a crowd the plates \
were last used in any order, so that two cells side by side become free late.

Every call but make_fresh tests first whether the memory is sound, at a cost that grows with P. The row \"soundness \
test alone\" is a get_stale with the clock 0, which is refused right behind that test; the last two columns give its \
share of the call's time, by its time on plates with weights.
";

/// The chapter on replay.
fn replay_chapter(replay: &[LineTimes]) -> String {
    let mut text = String::from(REPLAY);
    for one in replay {
        text.push_str(&format!("| {} | {} |\n", thousands(one.cells), replay_columns(one).join(" | ")));
    }
    if let Some(one) = replay.first() {
        text.push_str(&format!("\nThe input has {} lines: {REPLAY_INPUT}", thousands(one.lines)));
    }
    text
}

const REPLAY: &str = "
## Replay lines

The proved replay program reads lines, makes their calls and prints what they answer. It works on a memory that is \
known to be sound, and so does not test soundness at each line, as each call through the C interface does. Beside it \
stand the second program's replay of the same lines, and the same calls through the C interface, with their checks \
and without any reading or printing; all in nanoseconds a line. The last ratio is what a line costs against its \
checked call alone.

| P | replay | lines a second | second | ratio | checked calls | ratio |
|---:|---:|---:|---:|---:|---:|---:|
";

const REPLAY_INPUT: &str = "\
`fresh`, sets until the pool is full, and then steps in a fixed pseudo-random order. Of 100 steps 70 get a plate that \
is there, 10 get one that is not, 10 set one in place, 5 set a new one, which evicts the longest unused one in one \
round, and 5 delete one and then set a new one in its cell. Each plate that is there is equally likely. Keys have ten \
bytes, values are weights, and none expires.

How it is measured: the proved program is a process of its own. It reads the lines from a file in the system's \
temporary folder and writes to a pipe that the benchmark reads; its time is that from its start to its end, without \
what it takes on an empty input. The second program's replay runs in the benchmark's process, from memory to memory, \
and so do the calls, whose arguments are ready. The three take turns, sixteen times or more, between the turns of the \
rows below; the times are medians over the quietest quarter. Before, all that they answer is compared, and the \
program's output once more after each run. Calls and plates change from line to line, while a row below repeats one \
call on one memory; so these times cannot be added up from the rows. The program is linked apart from the benchmark, \
so that its loops stand at other places than those of the checked calls.
";

fn line(measured: &[Measured], one: &Measured) -> String {
    let (row, times) = (&one.row, one.times);
    let share = |share: f64| format!("{:.0} %", share.min(100.0));
    let (library, second) = match shares(measured, one) {
        Some((library, second)) => (share(library), share(second)),
        None => (String::new(), String::new()),
    };
    let (by_library, by_second) = (number(times.library), number(times.second));
    format!(
        "| {} | {} | {by_library} | {by_second} | {:.2} | {library} | {second} |\n",
        row.state,
        one.row.label(),
        times.ratio()
    )
}

/// How many rounds the sets in a crowd run.
fn crowds(measured: &[Measured]) -> String {
    let rounds = measured.iter().filter(|one| one.row.case.ends_with("crowd")).filter_map(|one| {
        let (_, rounds) = one.row.answer?;
        Some(format!("{rounds} rounds at P = {}", thousands(one.row.cells)))
    });
    format!("The sets in a crowd run {}.\n\n", rounds.collect::<Vec<_>>().join(" and "))
}

/// For each size: how many rows, the ratio in the middle, the worst and the best.
fn summary(measured: &[Measured]) -> String {
    let mut text = String::from("| P | rows | median ratio | best | worst | rows where the library is slower |\n");
    text.push_str("|---:|---:|---:|---:|---:|---:|\n");
    for cells in SIZES {
        let mut ratios: Vec<f64> =
            measured.iter().filter(|one| one.row.cells == cells).map(|one| one.times.ratio()).collect();
        ratios.sort_unstable_by(f64::total_cmp);
        let (Some(best), Some(worst)) = (ratios.first(), ratios.last()) else { continue };
        let slower = ratios.iter().filter(|&&ratio| ratio > 1.0).count();
        let middle = ratios[ratios.len() / 2];
        text.push_str(&format!(
            "| {} | {} | {middle:.2} | {best:.2} | {worst:.2} | {slower} |\n",
            thousands(cells),
            ratios.len()
        ));
    }
    text
}

/// The rows whose ratio is above 1, the worst first.
fn slower(measured: &[Measured]) -> String {
    let mut slower: Vec<&Measured> = measured.iter().filter(|one| one.times.ratio() > 1.0).collect();
    slower.sort_unstable_by(|a, b| b.times.ratio().total_cmp(&a.times.ratio()));
    if slower.is_empty() {
        return String::from("Nowhere.\n");
    }
    let mut text = String::from("| ratio | P | memory | call | library | second |\n|---:|---:|---|---|---:|---:|\n");
    for one in slower {
        let (row, times) = (&one.row, one.times);
        text.push_str(&format!(
            "| {:.2} | {} | {} | {} | {} | {} |\n",
            times.ratio(),
            thousands(row.cells),
            row.state,
            one.row.label(),
            number(times.library),
            number(times.second)
        ));
    }
    text
}

/// 1024 as 1,024.
pub fn thousands(number: usize) -> String {
    if number < 1000 {
        number.to_string()
    } else {
        format!("{},{:03}", thousands(number / 1000), number % 1000)
    }
}

/// The processor as the system names it.
fn processor() -> String {
    let text = fs::read_to_string("/proc/cpuinfo").unwrap_or_default();
    let model = text.lines().find_map(|line| line.strip_prefix("model name"));
    model
        .and_then(|line| line.split_once(':'))
        .map_or_else(|| String::from("not known"), |(_, name)| name.trim().into())
}
