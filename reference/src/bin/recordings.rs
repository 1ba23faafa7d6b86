//! `recordings SEED COUNT`: generated calls of the recorder, good and bad, at the
//! proved static library and at the reference; compares the cause and the whole
//! buffer, and reads every written sheet back. Stops at the first difference.
//! Built with the feature `sheets`.

use std::process::ExitCode;

use reference::ask::seed_and_count;
use reference::generate::generate;
use reference::random::Random;
use reference::recorder::record;
use reference::sheet::check_front;
use reference::sheets::proved_recording;
use reference::words::{read_entry, Entry, Settings};

/// What stands in the buffer before a call.
const UNTOUCHED: u32 = 0x5A3C_F096;

/// One call: n, f, correct bits, drift and tightness, the list of numbers, and
/// the length of the buffer.
#[derive(Debug)]
struct Call {
    given: [u32; 5],
    numbers: Vec<u32>,
    room: usize,
}

/// Calls by their cause, 0 for what was written, and the entries written.
#[derive(Default)]
struct Tally {
    causes: [u64; 13],
    entries: u64,
    /// Calls for which more than one cause applies.
    several: u64,
}

fn settings(given: &[u32; 5]) -> Settings {
    let [n, f, correct, drift, tightness] = *given;
    Settings {
        n,
        f,
        correct,
        drift,
        tightness,
    }
}

fn numbers_of(entry: &Entry) -> [u32; 6] {
    let (time, reading) = (entry.time.0, entry.reading.0);
    [
        time,
        reading,
        entry.head,
        entry.action,
        entry.sender,
        entry.serial,
    ]
}

/// The numbers of a sheet's entries, if each is one by the rules.
fn numbers_in(words: &[u32], n: u32) -> Option<Vec<u32>> {
    let entries: Option<Vec<Entry>> = words[2..].chunks(3).map(|e| read_entry(e, n)).collect();
    Some(entries?.iter().flat_map(numbers_of).collect())
}

/// A number of at most so many bits, often at an edge.
fn of_width(random: &mut Random, bits: u32) -> u32 {
    let all = (1u64 << bits) - 1;
    match random.below(6) {
        0 => 0,
        1 => all as u32,
        _ => (random.draw() & all) as u32,
    }
}

/// A number that is wider than so many bits.
fn too_wide(random: &mut Random, bits: u32) -> u32 {
    match random.below(3) {
        0 => 1 << bits,
        1 => u32::MAX,
        _ => 1 << (bits + random.below(u64::from(32 - bits)) as u32) | of_width(random, bits),
    }
}

/// n, f and correct bits by the first word's rules, drift and tightness.
fn good_settings(random: &mut Random) -> [u32; 5] {
    let n = 2 + random.below(15) as u32;
    let f = random.below(u64::from((n - 1) / 2) + 1) as u32;
    let correct = of_width(random, n);
    [n, f, correct, of_width(random, 12), of_width(random, 16)]
}

/// An entry of n heads, of any action.
fn good_entry(random: &mut Random, n: u32) -> [u32; 6] {
    let heads = u64::from(n);
    let action = random.below(10) as u32;
    let sender = if matches!(action, 2 | 5 | 8) {
        random.below(heads) as u32
    } else {
        0
    };
    let serial = if matches!(action, 5 | 8) {
        of_width(random, 4)
    } else {
        0
    };
    let head = random.below(heads) as u32;
    let (time, reading) = (of_width(random, 28), of_width(random, 28));
    [time, reading, head, action, sender, serial]
}

/// The fields of a generated sheet that has whole entries by the rules.
fn of_sheet(seed: u64, index: u64) -> Option<([u32; 5], Vec<u32>)> {
    let words: Vec<u32> = generate(seed, index)
        .bytes
        .chunks_exact(4)
        .map(|b| u32::from_be_bytes([b[0], b[1], b[2], b[3]]))
        .collect();
    let g = check_front(&words, None).ok()?;
    let given = [g.n, g.f, g.correct, g.drift, g.tightness];
    Some((given, numbers_in(&words, g.n)?))
}

/// A call that nothing is wrong with.
fn good_call(random: &mut Random, seed: u64, index: u64) -> Call {
    let drawn = if random.chance(1, 4) {
        of_sheet(seed, index)
    } else {
        None
    };
    let (given, numbers) = drawn.unwrap_or_else(|| {
        let given = good_settings(random);
        let entries = match random.below(400) {
            0 => 4096,
            1 => 4095,
            2..=40 => 0,
            _ => 1 + random.below(12),
        };
        let numbers = (0..entries)
            .flat_map(|_| good_entry(random, given[0]))
            .collect();
        (given, numbers)
    });
    let room = 2 + numbers.len() / 2 + random.pick(&[0, 0, 1, 2, 7]);
    Call {
        given,
        numbers,
        room,
    }
}

/// Makes one cause apply, or leaves the call as it is where it cannot.
fn spoil(random: &mut Random, call: &mut Call, cause: u32) {
    let entries = call.numbers.len() / 6;
    let at = 6 * random.index(entries.max(1));
    let n = call.given[0].clamp(2, 16);
    match cause {
        1 => call
            .numbers
            .resize(24_577 + random.index(8), random.pick(&[0, 1, u32::MAX])),
        2 => {
            let more = call.numbers.len() + 1 + random.index(5);
            call.numbers.resize(more, random.pick(&[0, 3, u32::MAX]));
        }
        3 => match random.below(4) {
            0 => call.given[0] = random.pick(&[0, 1, 17, 18, 255]),
            1 => call.given[1] = random.pick(&[n.div_ceil(2), 15]),
            2 => call.given[2] = 0xFFFF,
            _ => call.given[2] |= 1 << n & 0xFFFF,
        },
        5 => call.room = random.index(2 + call.numbers.len() / 2),
        6 if entries > 0 => match random.below(3) {
            0 => {
                call.numbers[at + 3] = 10 + random.below(6) as u32;
                call.numbers[at + 4] = 0;
                call.numbers[at + 5] = 0;
            }
            1 => call.numbers[at + 2] = random.pick(&[n, 15]),
            _ => {
                call.numbers[at + 3] = random.pick(&[2, 5, 8]);
                call.numbers[at + 4] = random.pick(&[n & 15, 15]);
                call.numbers[at + 5] = 0;
            }
        },
        12 if entries > 0 && random.chance(3, 4) => match random.below(3) {
            0 => {
                call.numbers[at + 3] = random.pick(&[0, 1, 3, 4, 6, 7, 9, 10, 15]);
                call.numbers[at + 4] = random.pick(&[1, n - 1, 15]);
            }
            1 => {
                call.numbers[at + 3] = random.pick(&[0, 1, 2, 3, 4, 6, 7, 9, 11]);
                call.numbers[at + 5] = random.pick(&[1, 15]);
            }
            _ => {
                let field = random.index(6);
                call.numbers[at + field] = too_wide(random, if field < 2 { 28 } else { 4 });
            }
        },
        12 => {
            let field = random.index(5);
            call.given[field] = too_wide(random, [8, 4, 16, 12, 16][field]);
        }
        _ => (),
    }
}

/// The call of this seed and index: good, spoiled once, or spoiled several times.
fn draw(seed: u64, index: u64) -> (Call, bool) {
    let mut random = Random::new(seed, index);
    let mut call = good_call(&mut random, seed, index);
    let times = random.pick(&[0, 0, 0, 1, 1, 1, 1, 2, 2, 3]);
    for _ in 0..times {
        // A list of 24,577 numbers takes long, so it comes up less often.
        let cause = random.pick(&[2, 3, 3, 5, 5, 6, 6, 6, 12, 12, 12, 12]);
        let cause = if random.chance(1, 100) { 1 } else { cause };
        spoil(&mut random, &mut call, cause);
    }
    (call, times > 1)
}

/// A written sheet gives back the fields that it was written from.
fn read_back(call: &Call, words: &[u32]) -> Result<(), String> {
    let found = check_front(words, None);
    if found != Ok(settings(&call.given)) {
        return Err(format!("the sheet is read back with {found:?}"));
    }
    if numbers_in(words, call.given[0]).as_ref() != Some(&call.numbers) {
        return Err(String::from("the sheet is read back with other entries"));
    }
    Ok(())
}

/// One call at the library and at the reference. Gives the cause, or 0.
fn compare(call: &Call) -> Result<u32, String> {
    let mut expected = vec![UNTOUCHED; call.room + 1];
    let written = record(
        &settings(&call.given),
        &call.numbers,
        &mut expected[..call.room],
    );
    let cause = written.err().map_or(0, |cause| cause.0);
    let mut out = vec![UNTOUCHED; call.room + 1];
    let found = proved_recording(&call.given, &call.numbers, &mut out[..call.room]);
    if found != cause {
        return Err(format!("cause {found}, not {cause}"));
    }
    if out != expected {
        return Err(format!("cause {cause}, but another buffer"));
    }
    if cause == 0 {
        read_back(call, &out[..2 + call.numbers.len() / 2])?;
    }
    Ok(cause)
}

fn main() -> ExitCode {
    let Some((seed, count)) = seed_and_count() else {
        eprintln!("usage: recordings SEED COUNT");
        return ExitCode::from(2);
    };
    let mut tally = Tally::default();
    for index in 0..count {
        let (call, several) = draw(seed, index);
        match compare(&call) {
            Ok(cause) => {
                tally.causes[cause as usize] += 1;
                tally.several += u64::from(several);
                if cause == 0 {
                    tally.entries += call.numbers.len() as u64 / 6;
                }
            }
            Err(what) => {
                println!("difference in call {index} of seed {seed}: {what}: {call:?}");
                return ExitCode::FAILURE;
            }
        }
    }
    println!("{count} recordings of seed {seed}, no difference");
    println!("by cause 0 to 12: {:?}", tally.causes);
    println!(
        "entries written and read back: {}; calls spoiled more than once: {}",
        tally.entries, tally.several
    );
    let reached = [0, 1, 2, 3, 5, 6, 12].iter().all(|&c| tally.causes[c] > 0);
    if count >= 10_000 && !reached {
        println!("a cause was never met");
        return ExitCode::FAILURE;
    }
    ExitCode::SUCCESS
}
