//! `drafts SEED COUNT`: calls of the drafter at the proved static library and at the
//! reference: first at every bound of its numbers, for every n and f, then COUNT
//! generated ones, good and bad. Compares the cause and the whole buffer, and has the
//! library replay and judge every drafted sheet. Stops at the first difference.
//! Built with the feature `sheets`.

use std::collections::BTreeSet;
use std::process::ExitCode;

use reference::ask::seed_and_count;
use reference::cover::ALLOWED_COUNTS;
use reference::draft::{draft, room, steps};
use reference::generate::draftable;
use reference::random::Random;
use reference::results::{Broadcast, HeadResult, HEAD_WORDS};
use reference::sheets::{proved, proved_draft};
use reference::words::TIME_LIMIT;

/// Numbers of heads outside 2 to 16: 258 is 2 in eight bits.
const BAD_HEADS: [u32; 8] = [0, 1, 17, 18, 255, 258, 1 << 31, u32::MAX];
/// Numbers of faulty heads; 16 is 0 in four bits, and twice 2^31 is 0 in 32.
const FAULTY: [u32; 13] = [0, 1, 2, 3, 4, 5, 6, 7, 8, 15, 16, 1 << 31, u32::MAX];

/// One call: n, f, first real time and spacing, and the length of the buffer.
#[derive(Debug)]
struct Call {
    given: [u32; 4],
    room: usize,
}

/// Calls by their cause, 0 for what was drafted.
#[derive(Default)]
struct Tally {
    causes: [u64; 14],
    /// The pairs n, f of drafted sheets.
    pairs: BTreeSet<[u32; 2]>,
    entries: u64,
}

/// First real times and spacings for n heads: plain ones, the last real time at
/// 2^28 - 1 and at 2^28, and some that would come out small in 32 bits.
fn times(n: u32) -> Vec<[u32; 2]> {
    let longest = (TIME_LIMIT - 1) / steps(n);
    let mut times = vec![
        [1000, 100],
        [0, longest + 1],
        [0, u32::MAX / steps(n) + 1],
        [0, u32::MAX],
        [u32::MAX, 0],
        [u32::MAX, 1],
        [u32::MAX, u32::MAX],
    ];
    for spacing in [0, 1, 10, longest] {
        let latest = TIME_LIMIT - 1 - spacing * steps(n);
        times.extend([[0, spacing], [latest, spacing], [latest + 1, spacing]]);
    }
    times
}

/// Every n and f with all these times, and rooms that are just enough, a word short,
/// larger and none.
fn at_bounds() -> Vec<Call> {
    let mut calls = Vec::new();
    for n in (2..=16).chain(BAD_HEADS) {
        let near = n.clamp(2, 16);
        let exact = room(near);
        for f in FAULTY {
            for [first, spacing] in times(near) {
                let given = [n, f, first, spacing];
                let rooms = [exact, exact - 1, exact + 1, exact + 9, 0];
                calls.extend(rooms.map(|room| Call { given, room }));
            }
        }
    }
    calls
}

/// Makes one cause apply, mostly, or two at times.
fn spoil(random: &mut Random, call: &mut Call, cause: u32) {
    let any = random.draw() as u32;
    let near = random.below(3) as u32;
    let n = call.given[0].clamp(2, 16);
    match cause {
        3 => match random.below(3) {
            0 => call.given[0] = random.pick(&BAD_HEADS),
            1 => call.given[1] = n.div_ceil(2) + near,
            _ => call.given[random.index(2)] = any,
        },
        13 => match random.below(3) {
            0 => {
                let way = call.given[3].min((TIME_LIMIT - 1) / steps(n)) * steps(n);
                call.given[2] = TIME_LIMIT - way + near;
            }
            1 => call.given[2 + random.index(2)] = random.pick(&[any, u32::MAX - near]),
            _ => call.given[3] = (TIME_LIMIT - 1) / steps(n) + 1 + near,
        },
        _ => {
            let short = random.index(room(n));
            call.room = random.pick(&[short, room(n) - 1]);
        }
    }
}

/// The call of this seed and index: good, spoiled once, or spoiled several times.
fn drawn(seed: u64, index: u64) -> Call {
    let mut random = Random::new(seed, index);
    let given = draftable(&mut random);
    let room = room(given[0]) + random.pick(&[0, 0, 1, 2, 700]);
    let mut call = Call { given, room };
    for _ in 0..random.pick(&[0, 0, 0, 0, 1, 1, 1, 2, 3]) {
        let cause = random.pick(&[3, 5, 13]);
        spoil(&mut random, &mut call, cause);
    }
    call
}

/// The library replays and judges a drafted sheet: all premises are kept, and every
/// head has adopted head 0's start, which all took n steps after the first time, and
/// has broadcast one frame of each sort.
fn replayed(call: &Call, words: &[u32]) -> Result<(), String> {
    let [n, _, first, spacing] = call.given;
    let mut out = vec![0; HEAD_WORDS * n as usize];
    let (judged, answer) = proved(words, &mut out);
    if (judged, answer) != (0, [0; 5]) {
        return Err(format!("the sheet is judged {judged} {answer:?}"));
    }
    let start = first + spacing * n;
    let results = (0..n).map(|head| HeadResult {
        head,
        outcome: 2,
        candidate: 0,
        adjuster: 0,
        adjustment: start,
        start,
        broadcast: Broadcast {
            starts: 1,
            votes: 1,
            adjusts: 1,
        },
    });
    let expected: Vec<u32> = results.flat_map(|result| result.words()).collect();
    if out != expected {
        return Err(format!("the sheet's result words are {out:x?}"));
    }
    Ok(())
}

/// One call at the library and at the reference, with a buffer of random words and
/// one more behind its end. Gives the cause, or 0.
fn compare(call: &Call, random: &mut Random) -> Result<u32, String> {
    let [n, f, first, spacing] = call.given;
    let mut expected: Vec<u32> = (0..=call.room).map(|_| random.draw() as u32).collect();
    let mut out = expected.clone();
    let drafted = draft(n, f, first, spacing, &mut expected[..call.room]);
    let cause = drafted.err().map_or(0, |cause| cause.0);
    let found = proved_draft(&call.given, &mut out[..call.room]);
    if found != cause {
        return Err(format!("cause {found}, not {cause}"));
    }
    if let Some(at) = (0..out.len()).find(|&at| out[at] != expected[at]) {
        let (found, expected) = (out[at], expected[at]);
        return Err(format!(
            "cause {cause}, but word {at} is {found:#x}, not {expected:#x}"
        ));
    }
    if cause == 0 {
        replayed(call, &out[..room(n)])?;
    }
    Ok(cause)
}

fn main() -> ExitCode {
    let Some((seed, count)) = seed_and_count() else {
        eprintln!("usage: drafts SEED COUNT");
        return ExitCode::from(2);
    };
    let mut tally = Tally::default();
    let bounds = at_bounds();
    let bound = bounds.len();
    let drawn = (0..count).map(|index| drawn(seed, index));
    for (index, call) in (0..).zip(bounds.into_iter().chain(drawn)) {
        match compare(&call, &mut Random::new(!seed, index)) {
            Ok(cause) => {
                tally.causes[cause as usize] += 1;
                if cause == 0 {
                    tally.pairs.insert([call.given[0], call.given[1]]);
                    tally.entries += room(call.given[0]) as u64 / 3;
                }
            }
            Err(what) => {
                println!("difference in call {index} of seed {seed}: {what}: {call:?}");
                return ExitCode::FAILURE;
            }
        }
    }
    println!("{bound} drafts at the bounds and {count} of seed {seed}, no difference");
    println!("by cause 0 to 13: {:?}", tally.causes);
    println!(
        "replayed and judged: {} sheets of {} pairs n, f; {} entries",
        tally.causes[0],
        tally.pairs.len(),
        tally.entries
    );
    let reached = [0, 3, 5, 13].iter().all(|&c| tally.causes[c] > 0);
    if !reached || tally.pairs.len() != ALLOWED_COUNTS {
        println!("a cause or a pair was never met");
        return ExitCode::FAILURE;
    }
    ExitCode::SUCCESS
}
