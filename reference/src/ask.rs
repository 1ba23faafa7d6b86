//! A proved program, run as a child of the program that compares it; and what the
//! comparing programs are asked on the command line.

use std::io::{Read, Write};
use std::process::{Command, Stdio};

/// What a program prints for these bytes on its standard input.
pub fn ask(program: &str, bytes: Vec<u8>) -> std::io::Result<Vec<u8>> {
    let mut child = Command::new(program)
        .stdin(Stdio::piped())
        .stdout(Stdio::piped())
        .spawn()?;
    let mut input = child.stdin.take().expect("standard input is piped");
    // If the program stops early, the sheet that is not answered shows it.
    let writer = std::thread::spawn(move || drop(input.write_all(&bytes)));
    let mut printed = Vec::new();
    child
        .stdout
        .take()
        .expect("standard output is piped")
        .read_to_end(&mut printed)?;
    writer.join().expect("the writer ends");
    child.wait()?;
    Ok(printed)
}

/// The program to compare with, the seed and the count of sheets, from the command line.
pub fn arguments() -> Option<(String, u64, u64)> {
    let mut arguments = std::env::args().skip(1);
    let program = arguments.next()?;
    let seed = arguments.next()?.parse().ok()?;
    let count = arguments.next()?.parse().ok()?;
    Some((program, seed, count))
}

/// The seed and the count, from the command line.
pub fn seed_and_count() -> Option<(u64, u64)> {
    let mut arguments = std::env::args().skip(1);
    let seed = arguments.next()?.parse().ok()?;
    let count = arguments.next()?.parse().ok()?;
    Some((seed, count))
}
