//! Numbers, lists and answers as antt writes them.

use std::fmt::Display;

use crate::call::{Call, Name, Words};

/// From so many equal elements on a list is written with `replicate`.
const MANY_EQUAL: usize = 5;

/// A list, as an argument: `(1 ∷ 2 ∷ replicate 6 0)`.
pub fn list<T: PartialEq + Display>(elements: &[T]) -> String {
    match bare_list(elements) {
        text if text == "[]" => text,
        text => format!("({text})"),
    }
}

/// The same without parentheses.
fn bare_list<T: PartialEq + Display>(elements: &[T]) -> String {
    let mut text = String::new();
    let mut rest = elements;
    while let Some(first) = rest.first() {
        let equal = rest.iter().take_while(|&element| element == first).count();
        if equal < MANY_EQUAL {
            text.push_str(&format!("{first} ∷ ").repeat(equal));
        } else {
            text.push_str(&format!("replicate {equal} {first}"));
            if equal == rest.len() {
                return text;
            }
            text.push_str(" ++ ");
        }
        rest = &rest[equal..];
    }
    text.push_str("[]");
    text
}

/// A signed number, as an argument: `(pos 5)`, or `(negsuc 4)` for −5.
pub fn signed(number: i64) -> String {
    if number >= 0 {
        format!("(pos {number})")
    } else {
        format!("(negsuc {})", -(number + 1))
    }
}

/// An answer, as an argument, as the call's definition makes it.
pub fn answer(call: &Call, words: &Words) -> String {
    let [_, rounds, removed, forced, stale, ..] = *words;
    let outcome = outcome(call, words);
    match (rounds, forced, stale) {
        (0, 0, 0) => format!("(plain {outcome} {removed})"),
        (0, 0, _) => format!("(marked {outcome} true)"),
        _ => format!(
            "(record {{ rounds = {rounds}; removed = {removed}; forced = {}; stale = {}; outcome = {outcome} }})",
            forced != 0,
            stale != 0
        ),
    }
}

/// The outcome's case, with what it tells.
fn outcome(call: &Call, words: &Words) -> String {
    let [outcome, _, _, _, _, kind, flags, number, offset, length] = *words;
    let refusals = [
        "NotSound",
        "ClockZero",
        "KeyEmpty",
        "KeyTooLong",
        "KindUnknown",
        "NilRefused",
        "ExpiryTooLate",
        "NotFound",
        "Exists",
        "NotNumber",
        "SumTooLarge",
        "NoMemory",
    ];
    match (outcome, call.name, kind) {
        (1.., ..) => refusals[outcome as usize - 1].to_string(),
        (0, Name::Ttl | Name::GetKeys, _) => format!("(Count {number})"),
        (0, Name::Incr, _) => format!("(Sum {})", signed(number as i64)),
        (0, _, 1) => format!("(Boolean {flags} {} {offset})", number != 0),
        (0, _, 3) => format!("(Number {flags} {} {offset})", signed(number as i64)),
        (0, _, 4) => format!("(Text {flags} {offset} {length})"),
        _ => String::from("Done"),
    }
}

#[cfg(test)]
mod tests {
    use super::*;

    #[test]
    fn lists() {
        assert_eq!(list::<u8>(&[]), "[]");
        assert_eq!(list(&[1, 2, 2]), "(1 ∷ 2 ∷ 2 ∷ [])");
        assert_eq!(list(&[7, 0, 0, 0, 0, 0]), "(7 ∷ replicate 5 0)");
        assert_eq!(list(&[0, 0, 0, 0, 0, 0, 9]), "(replicate 6 0 ++ 9 ∷ [])");
    }

    #[test]
    fn signed_numbers() {
        assert_eq!(signed(0), "(pos 0)");
        assert_eq!(signed(-1), "(negsuc 0)");
        assert_eq!(signed(i64::MIN), "(negsuc 9223372036854775807)");
    }
}
