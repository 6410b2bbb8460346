//! Writes the vectors of crates/vectors/specs; with --check it compares them with those that stand there instead, and
//! the last line is 'N passed, M failed', N counting files.

use std::env;
use std::fs;
use std::io;
use std::path::Path;
use std::process::ExitCode;

use sessions::vector_files::files;

const USAGE: &str = "usage: vectors [--check]";
const FOLDER: &str = concat!(env!("CARGO_MANIFEST_DIR"), "/../crates/vectors/specs");

fn main() -> ExitCode {
    let args: Vec<String> = env::args().skip(1).collect();
    let done = match args.iter().map(String::as_str).collect::<Vec<_>>()[..] {
        [] => write(Path::new(FOLDER)),
        ["--check"] => check(Path::new(FOLDER)),
        _ => {
            eprintln!("{USAGE}");
            return ExitCode::from(2);
        }
    };
    match done {
        Ok(true) => ExitCode::SUCCESS,
        Ok(false) => ExitCode::FAILURE,
        Err(error) => {
            eprintln!("vectors: {error}");
            ExitCode::FAILURE
        }
    }
}

/// Writes all files, and removes those that are no longer made.
fn write(folder: &Path) -> io::Result<bool> {
    fs::create_dir_all(folder)?;
    let files = files();
    for name in names(folder)? {
        if !files.iter().any(|(made, _)| *made == name) {
            fs::remove_file(folder.join(name))?;
        }
    }
    for (name, text) in &files {
        fs::write(folder.join(name), text)?;
    }
    println!("{} files", files.len());
    Ok(true)
}

/// Compares all files; one too many is a failure too.
fn check(folder: &Path) -> io::Result<bool> {
    let files = files();
    let (mut passed, mut failed) = (0, 0);
    for (name, text) in &files {
        if fs::read_to_string(folder.join(name)).is_ok_and(|there| there == *text) {
            passed += 1;
        } else {
            println!("{name} is not what the second program gives: run the binary vectors without --check");
            failed += 1;
        }
    }
    for name in names(folder)? {
        if !files.iter().any(|(made, _)| *made == name) {
            println!("{name} is no file of the vectors");
            failed += 1;
        }
    }
    println!("{passed} passed, {failed} failed");
    Ok(failed == 0)
}

/// The names of the files that stand there.
fn names(folder: &Path) -> io::Result<Vec<String>> {
    fs::read_dir(folder)?.map(|file| Ok(file?.file_name().to_string_lossy().into_owned())).collect()
}
