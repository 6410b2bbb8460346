//! A value: what is stored, and what is found.

/// A value that is stored under a key or found there. A text is lent: by the caller to a store, by the pool to a
/// look-up.
#[derive(Debug, Clone, Copy, PartialEq, Eq, Hash)]
pub enum Value<'a> {
    /// No value: a `set` or `safe_set` of it deletes the entry, other stores refuse it. No look-up finds it.
    Nil,
    /// A boolean.
    Boolean(bool),
    /// A signed number, as a weight in grams.
    Number(i64),
    /// Bytes of any length, also none.
    Text(&'a [u8]),
}

/// The kinds' numbers in the library.
mod kind {
    pub const NIL: u8 = 0;
    pub const BOOLEAN: u8 = 1;
    pub const NUMBER: u8 = 3;
    pub const TEXT: u8 = 4;
}

impl<'a> Value<'a> {
    /// The kind, the number and the text that a store is given.
    pub(crate) fn to_arguments(self) -> (u8, i64, &'a [u8]) {
        match self {
            Value::Nil => (kind::NIL, 0, &[]),
            Value::Boolean(on) => (kind::BOOLEAN, i64::from(on), &[]),
            Value::Number(number) => (kind::NUMBER, number, &[]),
            Value::Text(text) => (kind::TEXT, 0, text),
        }
    }

    /// The value of a look-up's answer; `text` is the value's part of the pool.
    pub(crate) fn of_answer(kind: u64, number: i64, text: &'a [u8]) -> Self {
        match u8::try_from(kind) {
            Ok(kind::BOOLEAN) => Value::Boolean(number != 0),
            Ok(kind::NUMBER) => Value::Number(number),
            Ok(kind::TEXT) => Value::Text(text),
            // no look-up answers another kind; it would be no value
            _ => Value::Nil,
        }
    }
}
