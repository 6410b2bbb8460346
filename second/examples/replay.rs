//! The replay lines of standard input, done by this program: what the tests of the proved one compare with.

use std::io::{self, Read, Write};

fn main() -> io::Result<()> {
    let mut input = Vec::new();
    io::stdin().lock().read_to_end(&mut input)?;
    io::stdout().lock().write_all(&second::replay::replay(&input))
}
