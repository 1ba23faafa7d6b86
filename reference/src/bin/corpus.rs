//! `corpus SEED FILE..`: writes the stored corpus as a stream on standard output:
//! the sheets of the files, a sheet for each entry of the table of open actions that
//! a run can ask for, those that ask for actions after an early close, then the first 2,200 generated sheets of at most 1,800 bytes,
//! and the first 6 of 12,290 words, in the order of their index.

use std::io::{stdout, BufWriter, Write};

use reference::open::{asking, asking_early, in_reach};
use reference::words::to_bytes;

const SMALL: usize = 2_200;
const SMALL_BYTES: usize = 1_800;
const FULL: usize = 6;
const FULL_BYTES: usize = 49_160;

fn put(stream: &mut impl Write, bytes: &[u8]) -> std::io::Result<()> {
    stream.write_all(&(bytes.len() as u32).to_be_bytes())?;
    stream.write_all(bytes)
}

fn main() -> std::io::Result<()> {
    let mut arguments = std::env::args().skip(1);
    let Some(seed) = arguments.next().and_then(|a| a.parse().ok()) else {
        eprintln!("usage: corpus SEED FILE..");
        std::process::exit(2);
    };
    let mut stream = BufWriter::new(stdout().lock());
    for file in arguments {
        put(&mut stream, &std::fs::read(file)?)?;
    }
    for (action, setting) in in_reach() {
        put(&mut stream, &to_bytes(&asking(action, setting)))?;
    }
    for (_, words) in asking_early() {
        put(&mut stream, &to_bytes(&words))?;
    }
    let (mut small, mut full) = (0, 0);
    for index in 0.. {
        let bytes = reference::generate::generate(seed, index).bytes;
        if bytes.len() <= SMALL_BYTES && small < SMALL {
            small += 1;
            put(&mut stream, &bytes)?;
        } else if bytes.len() == FULL_BYTES && full < FULL {
            full += 1;
            put(&mut stream, &bytes)?;
        }
        if small == SMALL && full == FULL {
            break;
        }
    }
    stream.flush()
}
