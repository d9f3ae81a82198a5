//! Reads a sheet from standard input and writes its answers to standard output.

#![forbid(unsafe_code)]

use std::io::{self, Read, Write};

fn main() -> io::Result<()> {
    // One byte over the limit is enough to know that a sheet is too long.
    let mut sheet = Vec::new();
    let limit = separate::SHEET_LIMIT as u64 + 1;
    io::stdin().lock().take(limit).read_to_end(&mut sheet)?;
    io::stdout().lock().write_all(&separate::answers(&sheet))
}
