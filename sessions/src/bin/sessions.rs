//! Long random sessions: every call is made by the second program and by the proved library, and all that they answer
//! and leave is compared. The last line is 'N passed, M failed'; N counts calls.

use std::env;
use std::io::{stderr, IsTerminal, Write};
use std::process::ExitCode;
use std::time::{Duration, Instant};

use sessions::difference;
use sessions::duel::Difference;
use sessions::session::Session;

const USAGE: &str = "usage: sessions [--seed S] [--calls N]    (whole numbers below 2^64; 1 and 300000 if not given)";

struct Options {
    seed: u64,
    calls: u64,
}

fn main() -> ExitCode {
    let Some(options) = options(env::args().skip(1)) else {
        eprintln!("{USAGE}");
        return ExitCode::from(2);
    };
    let mut session = Session::new(options.seed);
    match run(&mut session, options.calls) {
        Ok(()) => finish(&session, &options),
        Err((number, difference)) => tell(&difference, options.seed, number),
    }
}

/// The options, if all of them are understood.
fn options(mut args: impl Iterator<Item = String>) -> Option<Options> {
    let mut options = Options { seed: 1, calls: 300_000 };
    while let Some(name) = args.next() {
        let value = args.next().filter(|text| text.bytes().all(|byte| byte.is_ascii_digit()))?.parse().ok()?;
        match &name[..] {
            "--seed" => options.seed = value,
            "--calls" => options.calls = value,
            _ => return None,
        }
    }
    Some(options)
}

/// Makes so many calls, up to the first difference, which it gives with the call's number.
fn run(session: &mut Session, calls: u64) -> Result<(), (u64, Box<Difference>)> {
    let begin = Instant::now();
    let watched = stderr().is_terminal();
    let mut shown = begin;
    for number in 1..=calls {
        session.step().map_err(|difference| (number, difference))?;
        if watched && number % 1024 == 0 && shown.elapsed() > Duration::from_secs(1) {
            shown = Instant::now();
            eprint!("\r{number} of {calls} calls, {} s ", begin.elapsed().as_secs());
            // progress that cannot be shown is no reason to stop
            let _ = stderr().flush();
        }
    }
    if watched {
        eprintln!("\r{calls} calls, {:.1} s        ", begin.elapsed().as_secs_f64());
    }
    Ok(())
}

/// No difference: prints what was reached, and fails if that is not everything.
fn finish(session: &Session, options: &Options) -> ExitCode {
    println!(
        "seed {}, {} calls: the second program and the library agree in all of them\n",
        options.seed, options.calls
    );
    session.coverage().print();
    let failures = session.coverage().failures(options.calls);
    for failure in &failures {
        println!("{failure}");
    }
    println!("{} passed, {} failed", options.calls, failures.len());
    if failures.is_empty() {
        ExitCode::SUCCESS
    } else {
        ExitCode::FAILURE
    }
}

fn tell(found: &Difference, seed: u64, number: u64) -> ExitCode {
    print!("{}", difference::report(found, seed, number));
    match difference::write(found, seed, number) {
        Ok(file) => println!("in full, as a test: {}", file.display()),
        Err(error) => println!("the full test could not be written: {error}"),
    }
    println!("{} passed, 1 failed", number - 1);
    ExitCode::FAILURE
}
