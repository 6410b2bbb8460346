//! The replay lines of document 01: "One call a line, fields parted by tabs".
//!
//! The memory is a directory and a pool for P = 1,024, of which each `fresh` uses the front (decisions 53 and 54 of
//! docs/DECISIONS.md).

use crate::answer::{outcome::LINE_UNREADABLE, Answer};
use crate::cells::{CELL, MOST_CELLS};
use crate::directory::{kind, HEAD, RECORD};
use crate::{bytes_at, delete, get, make_fresh, set};

const HEADER: &[u8] = b"call\tanswer\tkind\tvalue\tflags\trounds\tremoved\n";
/// "at most 4,096 bytes without its end"
const LONGEST_LINE: usize = 4096;

/// Runs all lines of an input and gives the whole output: the header, then one line for each line of the input.
pub fn replay(input: &[u8]) -> Vec<u8> {
    let mut memory = Memory::new();
    let mut output = HEADER.to_vec();
    for (line, call) in lines(input).zip(1..) {
        let answer = match parse(line) {
            Some(parsed) => memory.run(&parsed),
            None => Answer::refused(LINE_UNREADABLE),
        };
        let value = value_column(&answer, memory.pool());
        print_line(&mut output, call, &answer, &value);
    }
    output
}

/// "A line ends at byte 10; a last line without one counts unless it is empty."
fn lines(input: &[u8]) -> impl Iterator<Item = &[u8]> {
    input.split_inclusive(|&byte| byte == b'\n').map(|line| line.strip_suffix(b"\n").unwrap_or(line))
}

/// The calls that a line can make.
enum Call<'a> {
    Fresh { cells: usize },
    Set { clock: u64, key: &'a [u8], value: Value<'a>, lifetime: u64, flags: u32 },
    Get { clock: u64, key: &'a [u8] },
    Delete { clock: u64, key: &'a [u8] },
}

/// The kind and the value field of a set. Number and text are 0 and empty where the kind doesn't read them.
struct Value<'a> {
    kind: u8,
    number: i64,
    text: &'a [u8],
}

/// "`fresh`, P; clock, `set`, key, kind, value, lifetime, flags; clock, `get` or `delete`, key." "Anything else is 13."
fn parse(line: &[u8]) -> Option<Call<'_>> {
    if line.len() > LONGEST_LINE {
        return None;
    }
    let fields: Vec<&[u8]> = line.split(|&byte| byte == b'\t').collect();
    match fields[..] {
        [b"fresh", cells] => Some(Call::Fresh { cells: parse_cells(cells)? }),
        [clock, b"set", key, kind, value, lifetime, flags] => Some(Call::Set {
            clock: parse_unsigned(clock)?,
            key,
            value: parse_value(kind, value)?,
            lifetime: parse_unsigned(lifetime)?,
            flags: u32::try_from(parse_unsigned(flags)?).ok()?,
        }),
        [clock, b"get", key] => Some(Call::Get { clock: parse_unsigned(clock)?, key }),
        [clock, b"delete", key] => Some(Call::Delete { clock: parse_unsigned(clock)?, key }),
        _ => None,
    }
}

/// "P 1 to 1,024"
fn parse_cells(field: &[u8]) -> Option<usize> {
    let cells = usize::try_from(parse_unsigned(field)?).ok()?;
    (1..=MOST_CELLS).contains(&cells).then_some(cells)
}

/// "kind to 255". "a boolean is 0 or 1. For other kinds than 1, 3, 4 the value field isn't read."
fn parse_value<'a>(kind: &[u8], value: &'a [u8]) -> Option<Value<'a>> {
    let kind = u8::try_from(parse_unsigned(kind)?).ok()?;
    let number = match kind {
        kind::BOOLEAN => parse_boolean(value)?,
        kind::NUMBER => parse_weight(value)?,
        _ => 0,
    };
    let text = if kind == kind::TEXT { value } else { b"" };
    Some(Value { kind, number, text })
}

fn parse_boolean(field: &[u8]) -> Option<i64> {
    match field {
        b"0" => Some(0),
        b"1" => Some(1),
        _ => None,
    }
}

/// "only a weight may carry a minus, and not before 0." Signed 64 bits (decision 48 of docs/DECISIONS.md).
fn parse_weight(field: &[u8]) -> Option<i64> {
    match field.strip_prefix(b"-") {
        None => i64::try_from(parse_unsigned(field)?).ok(),
        Some(b"0") => None,
        Some(digits) => i64::try_from(-i128::from(parse_unsigned(digits)?)).ok(),
    }
}

/// "Numbers are decimal without needless zeros". Unsigned 64 bits; the callers ask for less where less fits.
fn parse_unsigned(field: &[u8]) -> Option<u64> {
    let needless_zero = field.len() > 1 && field[0] == b'0';
    if field.is_empty() || needless_zero {
        return None;
    }
    let mut number: u64 = 0;
    for &byte in field {
        if !byte.is_ascii_digit() {
            return None;
        }
        number = number.checked_mul(10)?.checked_add(u64::from(byte - b'0'))?;
    }
    Some(number)
}

/// The memory behind the lines.
struct Memory {
    dir: Vec<u64>,
    pool: Vec<u8>,
    /// The P of the last `fresh`, 0 before the first.
    cells: usize,
}

impl Memory {
    fn new() -> Memory {
        Memory { dir: vec![0; HEAD + RECORD * MOST_CELLS], pool: vec![0; CELL * MOST_CELLS], cells: 0 }
    }

    /// The part of the pool in use.
    fn pool(&self) -> &[u8] {
        &self.pool[..CELL * self.cells]
    }

    /// "Before the first `fresh` every call answers 1": no memory has P = 0, so check 1 refuses it.
    fn run(&mut self, call: &Call) -> Answer {
        if let Call::Fresh { cells } = *call {
            self.cells = cells;
        }
        let dir = &mut self.dir[..HEAD + RECORD * self.cells];
        let pool = &mut self.pool[..CELL * self.cells];
        match call {
            Call::Fresh { .. } => make_fresh(dir, pool),
            Call::Set { clock, key, value, lifetime, flags } => {
                set(dir, pool, *clock, key, value.kind, value.number, value.text, *lifetime, *flags)
            }
            Call::Get { clock, key } => get(dir, pool, *clock, key),
            Call::Delete { clock, key } => delete(dir, pool, *clock, key),
        }
    }
}

/// "`-` for no value (a text would stand as its bytes)". Only a get that found something answers a kind.
fn value_column(answer: &Answer, pool: &[u8]) -> Vec<u8> {
    match answer.kind {
        kind::BOOLEAN | kind::NUMBER => answer.number.to_string().into_bytes(),
        kind::TEXT => bytes_at(pool, answer.offset, answer.length).to_vec(),
        _ => b"-".to_vec(),
    }
}

/// One line of the output: call, answer, kind, value, flags, rounds, removed.
fn print_line(output: &mut Vec<u8>, call: u64, answer: &Answer, value: &[u8]) {
    output.extend(format!("{call}\t{}\t{}\t", answer.outcome, answer.kind).as_bytes());
    output.extend(value);
    let Answer { flags, rounds, removed, .. } = answer;
    output.extend(format!("\t{flags}\t{rounds}\t{removed}\n").as_bytes());
}
