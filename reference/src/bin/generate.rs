//! `generate SEED COUNT DIR|-`: writes generated sheets, each to a file of the
//! directory, or all as a stream on standard output: for each sheet a big-endian
//! u32 byte length, then the bytes.

use std::io::{stdout, BufWriter, Write};
use std::path::Path;

fn main() -> std::io::Result<()> {
    let arguments: Vec<String> = std::env::args().collect();
    let numbers = (
        arguments.get(1).and_then(|a| a.parse().ok()),
        arguments.get(2).and_then(|a| a.parse().ok()),
    );
    let ((Some(seed), Some(count)), Some(target)) = (numbers, arguments.get(3)) else {
        eprintln!("usage: generate SEED COUNT DIR|-");
        std::process::exit(2);
    };
    let mut stream = BufWriter::new(stdout().lock());
    for index in 0..count {
        let bytes = reference::generate::generate(seed, index).bytes;
        if target == "-" {
            stream.write_all(&(bytes.len() as u32).to_be_bytes())?;
            stream.write_all(&bytes)?;
        } else {
            let name = format!("{seed}-{index:07}.sheet");
            std::fs::write(Path::new(target).join(name), &bytes)?;
        }
    }
    stream.flush()
}
