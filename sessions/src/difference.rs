//! A difference told: on standard output in short, and in full as a Rust test that makes the one call again.

use std::fmt::Write;
use std::fs;
use std::io;
use std::path::PathBuf;

use crate::call::{Args, Call};
use crate::duel::Difference;

/// More elements of a slice than this are cut in a short report.
const SHORT: usize = 64;

/// The difference for a reader. `number` is the call's number in the session, from 1.
pub fn report(difference: &Difference, seed: u64, number: u64) -> String {
    let call = &difference.call;
    let short = Call { name: call.name, args: shortened(&call.args) };
    format!(
        "the programs differ: {}\nseed {seed}, call {number}: {} at P = {} ({} words, {} bytes), {} entries\n\
         key of {} bytes, text of {} bytes, table of {} words\n{short:?}\nsecond:  {:?}\nlibrary: {:?}\n",
        difference.place,
        call.name.text(),
        difference.before.cells(),
        difference.before.dir.len(),
        difference.before.pool.len(),
        difference.before.count(),
        call.args.key.len(),
        call.args.text.len(),
        call.args.table.len(),
        difference.second,
        difference.library,
    )
}

fn shortened(args: &Args) -> Args {
    let mut args = args.clone();
    args.key.truncate(SHORT);
    args.text.truncate(SHORT);
    args.table.truncate(SHORT);
    args
}

/// Writes the call and its memory as a Rust test into the package's build folder, and gives the file's name.
pub fn write(difference: &Difference, seed: u64, number: u64) -> io::Result<PathBuf> {
    let folder = PathBuf::from(concat!(env!("CARGO_MANIFEST_DIR"), "/target"));
    fs::create_dir_all(&folder)?;
    let file = folder.join(format!("difference_{seed}_{number}.rs"));
    fs::write(&file, source(difference, seed, number))?;
    Ok(file)
}

/// The source of that test.
pub fn source(difference: &Difference, seed: u64, number: u64) -> String {
    let Call { name, args } = &difference.call;
    let mut text = format!(
        "// {}\n// Found by `sessions --seed {seed} --calls {number}`. Copy this file to sessions/tests/ and run\n\
         // `cargo test --release --offline` there: it makes the one call with both programs.\n\n\
         use sessions::call::{{Args, Call, Name}};\nuse sessions::duel::Duel;\nuse sessions::memory::Memory;\n\n\
         #[test]\nfn the_programs_agree() {{\n",
        difference.place
    );
    let mut line = |what: &str| writeln!(text, "    {what}").expect("a string takes everything");
    line(&format!("let dir = vec!{:?};", difference.before.dir));
    line(&format!("let pool = vec!{:?};", difference.before.pool));
    line(&format!("let key = vec!{:?};", args.key));
    line(&format!("let text = vec!{:?};", args.text));
    line(&format!("let table = vec!{:?};", args.table));
    line(&format!(
        "let (clock, kind, number, lifetime) = ({}, {}, {}, {});",
        args.clock, args.kind, args.number, args.lifetime
    ));
    line(&format!("let (flags, step, has_initial) = ({}, {}, {});", args.flags, args.step, args.has_initial));
    line(&format!("let (maximum, offset, length) = ({}, {}, {});", args.maximum, args.offset, args.length));
    line("let args = Args {");
    line("    clock, key, kind, number, text, lifetime, flags, step, has_initial, maximum, table, offset, length,");
    line("};");
    line("let mut duel = Duel::default();");
    line("duel.load(&Memory { dir, pool });");
    line(&format!("let difference = duel.call(&Call {{ name: Name::{name:?}, args }}).err();"));
    line("assert!(difference.is_none(), \"{}\", difference.unwrap().place);");
    text.push_str("}\n");
    text
}
