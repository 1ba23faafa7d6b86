//! `answers [fast]`: reads a stream of sheets on standard input, as `generate`
//! writes it, and prints for each what the replay program prints.

use std::io::{stdin, stdout, BufReader, BufWriter, ErrorKind, Read, Write};

fn main() -> std::io::Result<()> {
    let is_fast = std::env::args().nth(1).is_some_and(|a| a == "fast");
    let mut sheets = BufReader::new(stdin().lock());
    let mut answers = BufWriter::new(stdout().lock());
    let mut length = [0; 4];
    loop {
        match sheets.read_exact(&mut length) {
            Err(error) if error.kind() == ErrorKind::UnexpectedEof => break,
            other => other?,
        }
        let mut bytes = vec![0; u32::from_be_bytes(length) as usize];
        sheets.read_exact(&mut bytes)?;
        let text = if is_fast {
            reference::fast::printed(&bytes)
        } else {
            reference::program::printed(&bytes)
        };
        answers.write_all(text.as_bytes())?;
    }
    answers.flush()
}
