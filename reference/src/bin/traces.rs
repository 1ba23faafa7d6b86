//! `traces PROGRAM SEED COUNT`: gives generated sheets, one at a time, to PROGRAM, the
//! proved program `trace`, and compares the last line that it prints with
//! [`reference::trace`]. Stops at the first difference and saves that sheet as
//! `difference.sheet`. Fails too if 2,000 sheets or more leave out a kind of last line.

use std::io::Error;
use std::process::ExitCode;

use reference::ask::{arguments, ask};
use reference::generate::generate;
use reference::trace::last_line;

/// From this many sheets on, each kind of last line must have been seen.
const ENOUGH: u64 = 2_000;

/// What a last line begins with: `refused`, or `premises` and a number.
fn kinds() -> Vec<String> {
    let premises = (0..=8).map(|p| format!("premises {p}"));
    premises.chain(["refused".into()]).collect()
}

/// The last line of a text, with the end of line that it has.
fn last_of(text: &str) -> &str {
    text.split_inclusive('\n').next_back().unwrap_or_default()
}

/// Compares one sheet, and gives the last line of both.
fn compare(program: &str, seed: u64, index: u64) -> Result<Result<String, String>, Error> {
    let made = generate(seed, index);
    let expected = last_line(&made.bytes);
    let printed = ask(program, made.bytes.clone())?;
    let printed = String::from_utf8_lossy(&printed);
    let printed = last_of(&printed);
    if printed == expected {
        return Ok(Ok(expected));
    }
    std::fs::write("difference.sheet", &made.bytes)?;
    let at = format!("sheet {index} of seed {seed}, {:?}", made.aim);
    Ok(Err(format!(
        "difference at {at}\nexpected:\n{expected}printed:\n{printed}"
    )))
}

/// Prints how often each kind was seen, and gives those that never were.
fn print(seen: &[(String, u64)]) -> Vec<&str> {
    let mut missing = Vec::new();
    for (kind, sheets) in seen {
        println!("{sheets:>9}  {kind}");
        if *sheets == 0 {
            missing.push(kind.as_str());
        }
    }
    missing
}

fn main() -> Result<ExitCode, Error> {
    let Some((program, seed, count)) = arguments() else {
        eprintln!("usage: traces PROGRAM SEED COUNT");
        return Ok(ExitCode::from(2));
    };
    let mut seen: Vec<_> = kinds().into_iter().map(|kind| (kind, 0)).collect();
    for index in 0..count {
        match compare(&program, seed, index)? {
            Err(what) => {
                println!("{what}");
                return Ok(ExitCode::FAILURE);
            }
            Ok(line) => {
                let kind = seen.iter_mut().find(|(kind, _)| line.starts_with(kind));
                kind.expect("a last line is of a kind").1 += 1;
            }
        }
    }
    println!("{count} sheets of seed {seed}, no difference in the last line");
    let missing = print(&seen);
    if count >= ENOUGH && !missing.is_empty() {
        println!("never seen: {}", missing.join(", "));
        return Ok(ExitCode::FAILURE);
    }
    Ok(ExitCode::SUCCESS)
}
