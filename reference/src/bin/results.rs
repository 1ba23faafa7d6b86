//! `results SEED SHEETS CALLS`: the four result words a head, and the two readers of
//! them, at the proved static library and at the reference. SHEETS generated sheets are
//! replayed with long and short buffers, and both readers are asked for every head; then
//! come CALLS of both readers, with good and damaged words. Compares causes, buffers and
//! all numbers, and stops at the first difference. Built with the feature `sheets`.

use std::process::ExitCode;

use reference::damage::{damage, drawn, Asked};
use reference::generate::generate;
use reference::random::Random;
use reference::results::{Broadcast, HeadResult, HEAD_WORDS, RESULT_WORDS};
use reference::sheet::{run, Run};
use reference::sheets::{compare, compare_readers, Read};
use reference::words::{bits, kind, Cause};

/// From this many sheets, or calls, on, all of their kinds must have been met.
const ENOUGH: u64 = 10_000;
/// Result words of so many accepted sheets are kept to be damaged.
const KEPT: usize = 1_000;
/// The causes of a reader, in the order of its tests.
const CAUSES: [u32; 3] = [3, 2, 6];

/// What was met so far.
#[derive(Default)]
struct Tally {
    /// Replays by their cause, 0 for accepted ones.
    replays: [u64; 10],
    /// Heads of the accepted sheets by their outcome.
    heads: [u64; 3],
    /// Those of them that sent frames without outcome 2, that sent several votes, and
    /// several adjusts.
    unadopted: u64,
    votes: u64,
    adjusts: u64,
    /// Calls of the display and of the planner's reader, by which of `CAUSES` apply to
    /// them: the first counts 1, the second 2, the third 4.
    calls: [[u64; 8]; 2],
    /// Calls that were answered, by the outcome, 3 for a number above 2.
    outcomes: [[u64; 4]; 2],
    /// Calls that only the display answers.
    shown_alone: u64,
}

/// The length of a buffer that is too short for as many heads as the first word says:
/// any, or as long as three words a head were, or a word short.
fn short_buffer(random: &mut Random, words: &[u32]) -> usize {
    let heads = words.first().map_or(2, |&first| bits(first, 27, 20));
    let heads = heads.clamp(2, 16) as usize;
    let any = random.index(HEAD_WORDS * heads);
    random.pick(&[any, 3 * heads, HEAD_WORDS * heads - 1])
}

/// The numbers that the planner's reader must give for a head, from its record and its
/// frames in the run.
fn expected(run: &Run, head: u32) -> [i64; 9] {
    let record = &run.records[head as usize];
    let Broadcast {
        starts,
        votes,
        adjusts,
    } = Broadcast::of(run, head);
    let mut numbers = [0; 9];
    numbers[0] = record.outcome().into();
    if let (2, Some(start)) = (record.outcome(), record.chosen_start_reading()) {
        numbers[1] = record.candidate.expect("a candidate").into();
        numbers[2] = record.adjuster.expect("an adjuster").into();
        numbers[3] = record.adjustment.0.into();
        numbers[4] = start.0.into();
        numbers[5] = numbers[3] - numbers[4];
    }
    numbers[6..].copy_from_slice(&[starts, votes, adjusts].map(i64::from));
    numbers
}

impl Tally {
    fn count_head(&mut self, told: &[i64; 9]) {
        self.heads[told[0] as usize] += 1;
        self.unadopted += u64::from(told[0] != 2 && told[6..] != [0; 3]);
        self.votes += u64::from(told[7] > 1);
        self.adjusts += u64::from(told[8] > 1);
    }

    /// Both readers for every head of an accepted sheet, on what the library's replay
    /// left, and on these words without those of kind 9.
    fn heads(&mut self, run: &Run, out: &[u32]) -> Result<(), String> {
        let n = run.settings.n;
        let mut three = out.to_vec();
        three.retain(|&word| kind(word) != 9);
        for head in 0..n {
            let told = expected(run, head);
            let shown = [told[0], told[1], told[2], told[3], told[4], told[5]];
            let read = compare_readers(n, head, out)?;
            if read != (Ok(shown), Ok(told)) {
                return Err(format!("head {head} is read as {read:?}, not {told:?}"));
            }
            let read = compare_readers(n, head, &three)?;
            if read != (Ok(shown), Err(Cause(2))) {
                return Err(format!("head {head} of three words is read as {read:?}"));
            }
            self.count_head(&told);
        }
        Ok(())
    }

    /// One sheet, with a buffer of the length that it was made for, with one that is too
    /// short for its heads, and with one for as many heads as there may be. Gives the
    /// result words, and none of a sheet that is turned back.
    fn sheet(&mut self, seed: u64, index: u64) -> Result<Option<Vec<u32>>, String> {
        let made = generate(seed, index);
        let whole = made.bytes.chunks_exact(4);
        let words: Vec<u32> = whole
            .map(|b| u32::from_be_bytes([b[0], b[1], b[2], b[3]]))
            .collect();
        let short = short_buffer(&mut Random::new(!seed, index), &words);
        for buffer in [made.buffer, short] {
            self.replays[compare(&words, buffer, false)?.cause as usize] += 1;
        }
        let answered = compare(&words, RESULT_WORDS, false)?;
        self.replays[answered.cause as usize] += 1;
        let plain = run(&words, Some(RESULT_WORDS));
        let cause = plain.as_ref().err().map_or(0, |refusal| refusal.cause.0);
        if cause != answered.cause {
            return Err(format!("cause {}, not {cause}", answered.cause));
        }
        let Ok(run) = plain else {
            return Ok(None);
        };
        let heads = (0..run.settings.n).map(|head| HeadResult::of(&run, head));
        let told: Vec<u32> = heads.flat_map(|result| result.words()).collect();
        if answered.out[..told.len()] != told {
            return Err(format!("{:x?}, not {told:x?}", answered.out));
        }
        self.heads(&run, &told)?;
        Ok(Some(told))
    }

    fn count_call(&mut self, asked: &Asked, read: &Read) {
        let known = |word: &u32| (6..=8).contains(&kind(*word));
        let known: Vec<u32> = asked.words.iter().copied().filter(known).collect();
        self.calls[0][applying(asked, &known, 3)] += 1;
        self.calls[1][applying(asked, &asked.words, 4)] += 1;
        let outcomes = [read.0.map(|shown| shown[0]), read.1.map(|told| told[0])];
        for (reader, outcome) in outcomes.into_iter().enumerate() {
            if let Ok(outcome) = outcome {
                self.outcomes[reader][outcome.min(3) as usize] += 1;
            }
        }
        self.shown_alone += u64::from(read.0.is_ok() && read.1.is_err());
    }

    /// The call of this seed and index: words of a sheet or of any fields, often damaged,
    /// once or several times.
    fn call(&mut self, kept: &[Vec<u32>], seed: u64, index: u64) -> Result<(), String> {
        let mut random = Random::new(seed ^ 1 << 63, index);
        let mut asked = drawn(&mut random);
        if !kept.is_empty() && random.chance(1, 2) {
            asked.words = kept[random.index(kept.len())].clone();
            asked.n = (asked.words.len() / HEAD_WORDS) as u32;
            asked.head = random.below(asked.n.into()) as u32;
        }
        for _ in 0..random.pick(&[0, 1, 1, 1, 2, 2, 3]) {
            damage(&mut random, &mut asked);
        }
        let read = compare_readers(asked.n, asked.head, &asked.words)
            .map_err(|what| format!("{what}: {asked:x?}"))?;
        self.count_call(&asked, &read);
        Ok(())
    }

    fn print_calls(&self, name: &str, reader: usize) {
        let calls = &self.calls[reader];
        println!(
            "{name}: {} calls answered, by outcome 0, 1, 2 and above {:?}",
            calls[0], self.outcomes[reader]
        );
        for first in 0..3 {
            // Those to which no earlier cause applies.
            let refused = (0..8).filter(|applying: &usize| applying.trailing_zeros() == first);
            let count: u64 = refused.map(|applying| calls[applying]).sum();
            println!("{count:>9} refused by cause {}", CAUSES[first as usize]);
        }
        for (applying, count) in calls.iter().enumerate().skip(1) {
            let causes = (0..3).filter(|bit| applying >> bit & 1 == 1);
            let causes: Vec<String> = causes.map(|bit| CAUSES[bit].to_string()).collect();
            println!("{count:>9} to which apply: {}", causes.join(", "));
        }
    }

    fn print(&self) {
        println!("replays by cause 0 to 9: {:?}", self.replays);
        println!(
            "heads read by outcome 0 to 2: {:?}; frames without outcome 2: {}; several votes: {}, adjusts: {}",
            self.heads, self.unadopted, self.votes, self.adjusts
        );
        self.print_calls("display", 0);
        self.print_calls("planner's reader", 1);
        println!(
            "{:>9} calls that only the display answers",
            self.shown_alone
        );
    }

    /// Whether everything was met that so many sheets, and calls, must have.
    fn is_whole(&self, sheets: u64, calls: u64) -> bool {
        let met = |counts: &[u64]| counts.iter().all(|&count| count > 0);
        let heads = [self.unadopted, self.votes, self.adjusts];
        let of_sheets = met(&self.replays) && met(&self.heads) && met(&heads);
        let of_calls = self.calls.iter().all(|reader| met(reader))
            && self.outcomes.iter().all(|reader| met(reader))
            && self.shown_alone > 0;
        (sheets < ENOUGH || of_sheets) && (calls < ENOUGH || of_calls)
    }
}

/// Which of `CAUSES` apply to words of so many a head, each asked by itself.
fn applying(asked: &Asked, words: &[u32], each: u32) -> usize {
    let n = asked.n;
    let is_bad = [
        !(2..=16).contains(&n) || asked.head >= n,
        words.len() as u64 != u64::from(each) * u64::from(n),
        (0..)
            .zip(words)
            .any(|(i, &word)| kind(word) != 6 + i % each),
    ];
    (0..3).map(|bit| usize::from(is_bad[bit]) << bit).sum()
}

fn arguments() -> Option<[u64; 3]> {
    let numbers: Option<Vec<u64>> = std::env::args().skip(1).map(|a| a.parse().ok()).collect();
    numbers?.try_into().ok()
}

/// All sheets, then all calls; at the first difference what it is.
fn compare_all(tally: &mut Tally, seed: u64, sheets: u64, calls: u64) -> Result<(), String> {
    let mut kept = Vec::new();
    for index in 0..sheets {
        let out = tally.sheet(seed, index);
        let out = out.map_err(|what| format!("in sheet {index} of seed {seed}: {what}"))?;
        if kept.len() < KEPT {
            kept.extend(out);
        }
    }
    for index in 0..calls {
        let read = tally.call(&kept, seed, index);
        read.map_err(|what| format!("in call {index} of seed {seed}: {what}"))?;
    }
    Ok(())
}

fn main() -> ExitCode {
    let Some([seed, sheets, calls]) = arguments() else {
        eprintln!("usage: results SEED SHEETS CALLS");
        return ExitCode::from(2);
    };
    let mut tally = Tally::default();
    if let Err(what) = compare_all(&mut tally, seed, sheets, calls) {
        println!("difference {what}");
        return ExitCode::FAILURE;
    }
    println!("{sheets} sheets and {calls} calls of seed {seed}, no difference");
    tally.print();
    if !tally.is_whole(sheets, calls) {
        println!("a cause, an outcome or an order of causes was never met");
        return ExitCode::FAILURE;
    }
    ExitCode::SUCCESS
}
