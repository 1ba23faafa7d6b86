//! "The third point's words": the claim about a sheet's whole list of entries,
//! checked on one sheet.

use std::fmt;

use crate::judge::first_broken;
use crate::record::Record;
use crate::results::{read_results, write_results, HeadResult, RESULT_WORDS};
use crate::sheet::{run_observed, Run};
use crate::words::{Reading, RealTime, Refusal};

/// One look. "Looked at: any entry of the head, whatever the action, after the
/// one at which its adjust phase closed."
#[derive(Clone, Copy, Debug)]
struct Look {
    head: u32,
    time: RealTime,
    reading: Reading,
}

/// What was checked on one sheet.
#[derive(Clone, Copy, Debug, Default, PartialEq, Eq)]
pub struct Checked {
    /// Correct heads.
    pub heads: usize,
    /// Pairs of looks in the same real microsecond.
    pub pairs: usize,
    /// Pairs of looks at two heads, with the bound met within one microsecond.
    pub close_pairs: usize,
}

/// A clause of the claim that fails, and at which correct heads, in the order in which
/// they are asked.
#[derive(Clone, Copy, Debug, PartialEq, Eq)]
pub enum Failure {
    /// The head does not end "with a clock if its outcome is then 2".
    NoClock { head: u32, outcome: u32 },
    /// The two end with different candidates.
    Candidates(u32, u32),
    /// The two end with different adjusters.
    Adjusters(u32, u32),
    /// The two end with different adjustments.
    Adjustments(u32, u32),
    /// The head's result words are not its record's.
    Words(u32),
    /// The two are farther apart than the bound, D microseconds at this real time.
    Apart {
        heads: (u32, u32),
        d: i64,
        time: RealTime,
    },
}

impl fmt::Display for Failure {
    fn fmt(&self, f: &mut fmt::Formatter) -> fmt::Result {
        match *self {
            Failure::NoClock { head, outcome } => write!(f, "head {head} has outcome {outcome}"),
            Failure::Candidates(x, y) => write!(f, "heads {x} and {y} have different candidates"),
            Failure::Adjusters(x, y) => write!(f, "heads {x} and {y} have different adjusters"),
            Failure::Adjustments(x, y) => write!(f, "heads {x} and {y} have different adjustments"),
            Failure::Words(head) => {
                write!(f, "the result words of head {head} are not its record's")
            }
            Failure::Apart { heads, d, time } => {
                let (x, y) = heads;
                write!(f, "heads {x} and {y} are {d} apart at {}", time.0)
            }
        }
    }
}

/// The claim on one sheet: None if it says nothing of the sheet (refused, or a
/// premise broken), else what was checked or what failed.
pub fn check(words: &[u32]) -> Option<Result<Checked, Failure>> {
    let (run, looks) = run_with_looks(words).ok()?;
    if first_broken(&run) != 0 {
        return None;
    }
    let (checked, failures) = check_clauses(&run, &looks);
    Some(failures.first().map_or(Ok(checked), |&first| Err(first)))
}

/// The clauses that fail on any accepted sheet, whether or not its premises are kept.
pub fn failures(words: &[u32]) -> Result<Vec<Failure>, Refusal> {
    let (run, looks) = run_with_looks(words)?;
    Ok(check_clauses(&run, &looks).1)
}

fn run_with_looks(words: &[u32]) -> Result<(Run, Vec<Look>), Refusal> {
    let mut looks = Vec::new();
    let run = run_observed(words, None, &mut |taken| {
        if taken.before.adjust_close {
            looks.push(Look {
                head: taken.entry.head,
                time: taken.entry.time,
                reading: taken.entry.reading,
            });
        }
    })?;
    Ok((run, looks))
}

/// What was checked, and the clauses that fail.
fn check_clauses(run: &Run, looks: &[Look]) -> (Checked, Vec<Failure>) {
    let mut checked = Checked {
        heads: run.settings.correct_heads().len(),
        ..Checked::default()
    };
    let mut results = Vec::new();
    // "the same candidate, adjuster and adjustment"
    let clauses = [
        check_clocks(run),
        check_same(run, |r| r.candidate, Failure::Candidates),
        check_same(run, |r| r.adjuster, Failure::Adjusters),
        check_same(run, |r| Some(r.adjustment.0), Failure::Adjustments),
        check_words(run, &mut results),
        check_bound(run, &results, looks, &mut checked),
    ];
    let failures = clauses.into_iter().filter_map(Result::err).collect();
    (checked, failures)
}

/// That all correct heads end with a clock.
fn check_clocks(run: &Run) -> Result<(), Failure> {
    for head in run.settings.correct_heads() {
        let outcome = run.records[head as usize].outcome();
        if outcome != 2 {
            return Err(Failure::NoClock { head, outcome });
        }
    }
    Ok(())
}

/// That all correct heads' records have the same of something; none counts as 0.
fn check_same(
    run: &Run,
    of: fn(&Record) -> Option<u32>,
    failure: fn(u32, u32) -> Failure,
) -> Result<(), Failure> {
    let correct = run.settings.correct_heads();
    let of_head = |head: u32| of(&run.records[head as usize]).unwrap_or(0);
    for &head in &correct {
        if of_head(head) != of_head(correct[0]) {
            return Err(failure(correct[0], head));
        }
    }
    Ok(())
}

/// That the correct heads' words have the outcome of their records and, with a clock, the
/// candidate, adjuster, adjustment and correction. Gives what the words of those with a
/// clock say.
fn check_words(run: &Run, results: &mut Vec<HeadResult>) -> Result<(), Failure> {
    let mut buffer = [0; RESULT_WORDS];
    write_results(run, &mut buffer);
    let told = read_results(&buffer, run.settings.n);
    for head in run.settings.correct_heads() {
        let record = &run.records[head as usize];
        let result = told[head as usize];
        let same = Some(result.candidate) == record.candidate
            && Some(result.adjuster) == record.adjuster
            && result.adjustment == record.adjustment.0
            && Some(result.correction()) == record.correction();
        let has_clock = record.outcome() == 2;
        if result.outcome != record.outcome() || (has_clock && !same) {
            return Err(Failure::Words(head));
        }
        if has_clock {
            results.push(result);
        }
    }
    Ok(())
}

/// The bound for every two looks at correct heads in the same real microsecond:
/// 1,000,000 · D ≤ 1,000,000 · (tightness + 2) + drift · (microseconds since
/// each of the two heads last received the chosen start, added). A head without a clock
/// shows none.
fn check_bound(
    run: &Run,
    results: &[HeadResult],
    looks: &[Look],
    checked: &mut Checked,
) -> Result<(), Failure> {
    // Time, head, what the look shows, microseconds since the chosen start.
    let mut shown = Vec::new();
    for look in looks {
        let Some(result) = results.iter().find(|r| r.head == look.head) else {
            continue;
        };
        // "last received at its last action 2 with that sender"
        let received = run
            .entries
            .iter()
            .rfind(|e| e.head == look.head && e.action == 2 && e.sender == result.candidate)
            .expect("a start reading is held, so it was received");
        let since = i64::from(look.time.0) - i64::from(received.time.0);
        // "It shows that reading plus the correction, signed, never wrapped."
        let clock = i64::from(look.reading.0) + result.correction();
        shown.push((look.time, look.head, clock, since));
    }
    for (index, x) in shown.iter().enumerate() {
        // Looks are in the order of real time.
        for y in shown[index + 1..].iter().take_while(|y| y.0 == x.0) {
            // "D is the larger less the smaller."
            let d = (x.2 - y.2).abs();
            let bound = 1_000_000 * (i64::from(run.settings.tightness) + 2)
                + i64::from(run.settings.drift) * (x.3 + y.3);
            if 1_000_000 * d > bound {
                return Err(Failure::Apart {
                    heads: (x.1, y.1),
                    d,
                    time: x.0,
                });
            }
            checked.pairs += 1;
            if x.1 != y.1 && 1_000_000 * (d + 1) > bound {
                checked.close_pairs += 1;
            }
        }
    }
    Ok(())
}
