//! `differential PROGRAM SEED COUNT`: gives generated sheets to PROGRAM, the proved
//! program `corpus`, and compares what it prints with the fast form here; one sheet
//! in twenty also goes through the plain form and the counters of [`reference::cover`].
//! Stops at the first difference and saves that sheet as `difference.sheet`. Fails too
//! if 10,000 sheets or more leave out an answer that the program can give, or 10,000 of
//! the plain form or more a way in which a head deals with readings of another candidate
//! or takes the median of an even count.

use std::collections::BTreeMap;
use std::io::Error;
use std::process::ExitCode;

use reference::ask::{arguments, ask};
use reference::candidates::WAYS;
use reference::cover::{Cover, ALLOWED_COUNTS, BRANCHES};
use reference::generate::{generate, Generated};
use reference::medians::EVENS;
use reference::program::MAX_BYTES;

const BATCH: u64 = 1_000;
const PLAIN_EVERY: u64 = 20;
/// From this many sheets on, each of `ANSWERS` must have been seen, and from this many of
/// the plain form, each of `WAYS` and `EVENS`.
const ENOUGH: u64 = 10_000;
/// All answers but cause 5: the program's buffer has room for sixteen heads.
const ANSWERS: [&str; 17] = [
    "premises 0",
    "premises 1",
    "premises 2",
    "premises 3",
    "premises 4",
    "premises 5",
    "premises 6",
    "premises 7",
    "premises 8",
    "refused 1",
    "refused 2",
    "refused 3",
    "refused 4",
    "refused 6",
    "refused 7",
    "refused 8",
    "refused 9",
];

/// What was compared so far.
#[derive(Default)]
struct Tally {
    sheets: u64,
    bytes: u64,
    full: u64,
    classes: BTreeMap<String, u64>,
    answers: BTreeMap<String, u64>,
    plain: Cover,
}

impl Tally {
    fn count(&mut self, made: &Generated, text: &str) {
        self.sheets += 1;
        self.bytes += made.bytes.len() as u64;
        self.full += u64::from(made.bytes.len() == MAX_BYTES);
        *self.classes.entry(format!("{:?}", made.aim)).or_default() += 1;
        let last = text.lines().last().unwrap_or_default();
        let answer = last.split(' ').take(2).collect::<Vec<_>>().join(" ");
        *self.answers.entry(answer).or_default() += 1;
    }

    /// The answers that no sheet got, and the ways that none of the plain form took.
    fn missing(&self) -> Vec<&str> {
        let mut names = Vec::new();
        if self.sheets >= ENOUGH {
            names.extend(ANSWERS);
            names.retain(|name| !self.answers.contains_key(*name));
        }
        if self.plain.sheets >= ENOUGH {
            let ways = WAYS.into_iter().chain(EVENS);
            names.extend(ways.filter(|way| !self.plain.branches.contains_key(way)));
        }
        names
    }

    /// How often each was taken in the sheets of the plain form, and in how many of them.
    fn print_ways(&self, names: &[&str]) {
        for name in names {
            let count = |of: &BTreeMap<&str, u64>| of.get(name).copied().unwrap_or(0);
            let (times, sheets) = (count(&self.plain.branches), count(&self.plain.in_sheets));
            println!("{times:>9} in {sheets:>9} sheets  {name}");
        }
    }

    fn print(&self) {
        println!("{} bytes, {} sheets of 12,290 words", self.bytes, self.full);
        let plain = &self.plain;
        println!(
            "{} sheets through the fast form, {} of them through the plain form too",
            self.sheets, plain.sheets
        );
        println!("made for: {:?}", self.classes);
        println!("answers: {:?}", self.answers);
        println!(
            "plain form: {} of {} branches, {} of {ALLOWED_COUNTS} pairs n, f with all premises kept, {} sheets with the third point checked",
            plain.branches.len(),
            BRANCHES.len(),
            plain.counts.len(),
            plain.claims
        );
        println!("readings of another candidate, in the sheets of the plain form:");
        self.print_ways(&WAYS);
        println!("medians of an even count, in the sheets of the plain form:");
        self.print_ways(&EVENS);
    }
}

/// Saves a sheet that is answered differently, and says what was expected.
fn differs(made: &Generated, expected: &str, printed: &[u8]) -> std::io::Result<String> {
    std::fs::write("difference.sheet", &made.bytes)?;
    let lines = expected.lines().count();
    let printed = String::from_utf8_lossy(printed);
    let printed: Vec<&str> = printed.lines().take(lines).collect();
    let printed = printed.join("\n");
    Ok(format!("expected:\n{expected}printed:\n{printed}"))
}

/// Compares the sheets from `first` to before `end`.
fn batch(
    program: &str,
    seed: u64,
    first: u64,
    end: u64,
    tally: &mut Tally,
) -> std::io::Result<Result<(), String>> {
    let sheets: Vec<Generated> = (first..end).map(|i| generate(seed, i)).collect();
    let mut stream = Vec::new();
    for made in &sheets {
        stream.extend((made.bytes.len() as u32).to_be_bytes());
        stream.extend(&made.bytes);
    }
    let printed = ask(program, stream)?;
    let mut rest = printed.as_slice();
    for (index, made) in (first..end).zip(&sheets) {
        let at = format!("sheet {index} of seed {seed}, {:?}", made.aim);
        let expected = reference::fast::printed(&made.bytes);
        let Some(after) = rest.strip_prefix(expected.as_bytes()) else {
            let what = differs(made, &expected, rest)?;
            return Ok(Err(format!("difference at {at}\n{what}")));
        };
        rest = after;
        if index % PLAIN_EVERY == 0 {
            if let Err(why) = tally.plain.add(made) {
                std::fs::write("difference.sheet", &made.bytes)?;
                return Ok(Err(format!("plain form at {at}: {why}")));
            }
        }
        tally.count(made, &expected);
    }
    if !rest.is_empty() {
        return Ok(Err("more is printed than there are sheets".into()));
    }
    Ok(Ok(()))
}

fn main() -> Result<ExitCode, Error> {
    let Some((program, seed, count)) = arguments() else {
        eprintln!("usage: differential PROGRAM SEED COUNT");
        return Ok(ExitCode::from(2));
    };
    let mut tally = Tally::default();
    while tally.sheets < count {
        let first = tally.sheets;
        let end = count.min(first + BATCH);
        if let Err(what) = batch(&program, seed, first, end, &mut tally)? {
            println!("{what}");
            return Ok(ExitCode::FAILURE);
        }
        if tally.sheets.is_multiple_of(100 * BATCH) {
            eprintln!("{} sheets, no difference", tally.sheets);
        }
    }
    println!("{count} sheets of seed {seed}, no difference");
    tally.print();
    let missing = tally.missing();
    if !missing.is_empty() {
        println!("never seen: {}", missing.join(", "));
        return Ok(ExitCode::FAILURE);
    }
    Ok(ExitCode::SUCCESS)
}
