//! What the programs have in common: standard input in, a report out.

use std::io::{self, Read, Write};

use crate::word::INPUT_LIMIT;

/// Reads standard input, as far as a program looks at it, and prints the report
/// on it.
pub fn run(report: impl Fn(&[u8]) -> String) -> io::Result<()> {
    let mut input = Vec::new();
    io::stdin()
        .lock()
        .take(INPUT_LIMIT as u64)
        .read_to_end(&mut input)?;
    io::stdout().write_all(report(&input).as_bytes())
}
