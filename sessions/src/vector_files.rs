//! The files of crates/vectors/specs: every vector an equation with the definitions of crate `rules`.

use crate::antt::{answer, list, signed};
use crate::by_second::NOTICE;
use crate::call::{Args, Call, Name, Reply};
use crate::definitions::{opened, opened_by_rows, uses};
use crate::memory::Memory;
use crate::vectors::{vectors, Vector};

/// The most declarations of a file.
const MOST: usize = 60;

const HEAD: &str = "\
-- Calls that the second program (second/) made, computed once more by the definitions: the whole answer, all words and all bytes.
-- Written by `cargo run --release --offline --bin vectors` in sessions/, not by hand.
use Rattle.std.specs.Prelude.{◌≡◌, refl, true, false, [], ◌∷◌, ◌++◌, replicate, pos, negsuc, None}
";

/// A declaration: what it says of which call, and what it opens.
struct Declaration {
    comment: String,
    name: String,
    statement: String,
    opened: Vec<&'static str>,
}

/// The files by their names, Lib.antt included.
pub fn files() -> Vec<(String, String)> {
    let declarations = declarations();
    let mut files: Vec<(String, String)> = Vec::new();
    for (number, chunk) in (1..).zip(declarations.chunks(MOST)) {
        let body: String = chunk.iter().map(text).collect();
        files.push((format!("Vectors{number:02}"), format!("{HEAD}{}{body}", uses(&body))));
    }
    let modules = files.iter().map(|(name, _)| format!("pub mod {name}\n")).collect();
    files.push((String::from("Lib"), modules));
    files.into_iter().map(|(name, text)| (format!("{name}.antt"), text)).collect()
}

fn text(declaration: &Declaration) -> String {
    let Declaration { comment, name, statement, opened } = declaration;
    format!("\n-- {comment}\npub {name} : {statement}\nunfolding {}\n{name} = refl\n", opened.join(" "))
}

fn declarations() -> Vec<Declaration> {
    let vectors = vectors();
    let mut declarations: Vec<Declaration> = Vec::new();
    for (number, vector) in (1..).zip(&vectors) {
        declarations.push(of_call(number, vector));
        declarations.extend(beside(number, vector));
    }
    declarations.extend(of_answers(&vectors));
    declarations
}

fn of_call(number: usize, vector: &Vector) -> Declaration {
    let name = vector.call.name;
    Declaration {
        comment: comment(vector),
        name: format!("v{number:03}_{}", name.text()),
        statement: statement(vector),
        opened: opened(name),
    }
}

/// The call in words.
fn comment(vector: &Vector) -> String {
    let name = vector.call.name.text();
    match &vector.reply {
        Reply::Verdict(yes) => format!("{name}: {}", if *yes { "yes" } else { "no" }),
        Reply::Place([found, ..]) => format!("{name}: {}", if *found == 1 { "the text" } else { "the notice" }),
        Reply::Part([_, length]) => format!("{name}: {length} bytes"),
        Reply::Answer(words) | Reply::Listing(words, _) => {
            let [outcome, rounds, removed, ..] = words;
            format!("{name}: {outcome}, rounds {rounds}, removed {removed}")
        }
    }
}

/// The equation: the definition with the arguments, and what the second program made of them.
fn statement(vector: &Vector) -> String {
    let Vector { before, call, reply, after } = vector;
    let Call { name, args } = call;
    let memory = format!("{} {}", list(&before.dir), list(&before.pool));
    let keyed = format!("{memory} {} {}", args.clock, list(&args.key));
    let left = match name {
        Name::MakeFresh => format!("fresh_call {memory}"),
        Name::Audit => format!("audit {memory}"),
        Name::Get => format!("get_call {keyed}"),
        Name::GetStale => format!("get_stale_call {keyed}"),
        Name::Ttl => format!("ttl_call {keyed}"),
        Name::BytesAt => format!("bytes_at_call {} {} {}", list(&before.pool), args.offset, args.length),
        Name::Show => format!("show_call {keyed} {}", list(NOTICE)),
        Name::Set | Name::SafeSet | Name::Add | Name::SafeAdd | Name::Replace => store(call, &keyed),
        Name::Incr => format!("incr_call {keyed} {} {}", signed(args.step), initial(args)),
        Name::Delete => format!("delete_call {keyed}"),
        Name::Expire => format!("expire_call {keyed} {}", args.lifetime),
        Name::FlushAll => format!("flush_all_call {memory}"),
        Name::FlushExpired => format!("flush_expired_call {memory} {} {}", args.clock, args.maximum),
        Name::GetKeys => {
            format!("get_keys_flat_call {memory} {} {} {}", args.clock, args.maximum, list(&args.table))
        }
    };
    format!("{left} ≡ {}", result(call, reply, after))
}

fn store(call: &Call, keyed: &str) -> String {
    let Call { name, args } = call;
    let (number, text) = (signed(args.number), list(&args.text));
    format!("store_call {name:?} {keyed} {} {number} {text} {} {}", args.kind, args.lifetime, args.flags)
}

fn initial(args: &Args) -> String {
    if args.has_initial {
        format!("(given {} {})", signed(args.number), args.lifetime)
    } else {
        String::from("None")
    }
}

/// What the definition has to give. Calls that change nothing give no memory.
fn result(call: &Call, reply: &Reply, after: &Memory) -> String {
    match (call.name, reply) {
        (Name::GetStale | Name::Ttl, Reply::Answer(words)) => answer(call, words),
        (_, Reply::Answer(words)) => format!("gave {} {} {}", answer(call, words), list(&after.dir), list(&after.pool)),
        (_, Reply::Listing(words, table)) => format!("flat_listing {} {}", answer(call, words), list(table)),
        (_, Reply::Place([1, offset, length])) => list(part(after, *offset, *length)),
        (_, Reply::Place(_)) => list(NOTICE),
        (_, Reply::Part([offset, length])) => list(part(after, *offset, *length)),
        (_, Reply::Verdict(yes)) => yes.to_string(),
    }
}

fn part(memory: &Memory, offset: u64, length: u64) -> &[u8] {
    second::bytes_at(&memory.pool, offset, length)
}

/// A second equation about the same call: where the part of bytes_at begins, and get_keys over whole rows.
fn beside(number: usize, vector: &Vector) -> Option<Declaration> {
    let Vector { before, call, reply, .. } = vector;
    let args = &call.args;
    let (name, statement, opened) = match reply {
        Reply::Part([start, _]) => {
            let pool = list(&before.pool);
            ("start", format!("bytes_start {pool} {} {} ≡ {start}", args.offset, args.length), opened(call.name))
        }
        Reply::Listing(words, table) if table.len() % 3 == 0 => {
            let memory = format!("{} {}", list(&before.dir), list(&before.pool));
            let asked = format!("get_keys_call {memory} {} {} {}", args.clock, args.maximum, rows(&args.table));
            ("rows", format!("{asked} ≡ listing {} {}", answer(call, words), rows(table)), opened_by_rows())
        }
        _ => return None,
    };
    Some(Declaration { comment: format!("the same: {name}"), name: format!("v{number:03}_{name}"), statement, opened })
}

fn rows(table: &[u64]) -> String {
    let row = |row: &[u64]| format!("record {{ start = {}; klen = {}; kind = {} }} ∷ ", row[0], row[1], row[2]);
    match table.chunks_exact(3).map(row).collect::<String>() {
        rows if rows.is_empty() => String::from("[]"),
        rows => format!("({rows}[])"),
    }
}

/// The ten words of every answer that the vectors have.
fn of_answers(vectors: &[Vector]) -> Vec<Declaration> {
    let mut declarations: Vec<Declaration> = Vec::new();
    for vector in vectors {
        let Some(words) = vector.reply.answer() else { continue };
        let statement = format!("answer_words {} ≡ {}", answer(&vector.call, words), list(words));
        if !declarations.iter().any(|other| other.statement == statement) {
            let name = format!("w{:03}", declarations.len() + 1);
            let comment = String::from("the words of an answer");
            declarations.push(Declaration { comment, name, statement, opened: vec!["fields_of", "answer_words"] });
        }
    }
    declarations
}
