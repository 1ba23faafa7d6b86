//! Prints what the replay program prints for the bytes on standard input.

use std::io::{stdin, stdout, Read, Write};

fn main() -> std::io::Result<()> {
    let mut bytes = Vec::new();
    stdin().read_to_end(&mut bytes)?;
    stdout().write_all(reference::program::printed(&bytes).as_bytes())
}
