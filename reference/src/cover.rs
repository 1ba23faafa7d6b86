//! Counts of the actions, branches, causes and premises that generated sheets
//! reach, and the comparison of the plain form with the fast one.

use std::collections::{BTreeMap, BTreeSet};

use crate::candidates::{Watch, WAYS};
use crate::claim;
use crate::fast;
use crate::generate::{generate, Aim, Generated};
use crate::judge::{close_indices, first_broken, keeps, keeps_part, parts};
use crate::medians::{evens, EVENS};
use crate::program::{printed, read_words};
use crate::record::Record;
use crate::results::{Broadcast, HeadResult, HEAD_WORDS};
use crate::sheet::{replay, run, run_observed, Run, Taken};
use crate::step::{is_spent, Frame};
use crate::words::{bits, counts_allowed, has_sender, has_serial, kind, read_entry};
use crate::words::{Refusal, MAX_ENTRIES};

/// Every branch that a run of reasonable size has to reach.
pub const BRANCHES: &[&str] = &[
    "0 look",
    "0 look after the adjust close",
    "1 start sent",
    "2 first delivery",
    "2 repeat",
    "2 repeat with the own vote already sent",
    "2 own start",
    "2 reading 0",
    "2 becomes candidate",
    "2 after the vote close",
    "2 no effect after the adjust close",
    "3 confirmed",
    "4 becomes candidate",
    "4 too few start readings",
    "4 with a candidate",
    "4 after the vote close",
    "5 adopts, no candidate before",
    "5 adopts a higher rank",
    "5 keeps its higher rank",
    "5 keeps the same candidate",
    "5 takes none",
    "5 none replaces a reading",
    "5 takes a later serial",
    "5 no effect after the vote close",
    "5 no effect, same serial",
    "5 no effect, lower serial",
    "5 no effect, serial 0 after a higher one",
    WAYS[0],
    WAYS[1],
    WAYS[2],
    WAYS[3],
    WAYS[4],
    WAYS[5],
    "5 closes the vote early",
    "5 closes both phases early",
    "vote carries a reading",
    "vote carries none",
    "vote for itself",
    "vote for another first",
    "vote of serial 3 or more",
    "6 with a candidate",
    "6 without a candidate",
    "6 closes the adjust phase early",
    "6 spent",
    "7 becomes adjuster",
    "7 with an adjuster",
    "7 no candidate",
    "7 no vote reading",
    EVENS[0],
    EVENS[1],
    EVENS[2],
    EVENS[3],
    EVENS[4],
    EVENS[5],
    "7 median of an odd count above 1",
    WAYS[6],
    WAYS[7],
    WAYS[8],
    "7 after an early vote close",
    "7 spent",
    "7 spent, the turn already taken",
    "8 adopts, no adjuster before",
    "8 adopts a higher rank",
    "8 keeps its higher rank",
    "8 keeps the same adjuster",
    "8 before the vote close",
    "8 takes a later serial",
    "8 no effect after the adjust close",
    "8 no effect, same serial",
    "8 no effect, lower serial",
    "8 closes the adjust phase early after an early vote close",
    "8 closes the adjust phase early after a vote close by entry",
    "adjust of serial 2 or more",
    "9 outcome 2",
    "9 outcome 1, no candidate",
    "9 outcome 1, no start reading",
    "9 outcome 1, no adjuster",
    "9 without the adjust turn",
    "9 after an early vote close",
    "9 spent",
    "end outcome 0",
    "end outcome 1",
    "end outcome 2",
    "end correction negative",
    "end correction positive",
    "end outcome 0, frames sent",
    "end outcome 0, no frame sent",
    "end outcome 1, frames sent",
    "end outcome 1, no frame sent",
    "end a start and no vote",
    "end a vote and no start",
    "end a vote and no adjust",
    "end an adjust and no vote",
    "end two votes or more",
    "end two adjusts or more",
    "end three votes and three adjusts or more",
    "end n² + 2n frames of all heads",
    "cause 1",
    "cause 2 bytes",
    "cause 2 fewer than 2 words",
    "cause 2 no whole number",
    "cause 3 kind",
    "cause 3 n below 2",
    "cause 3 n above 16",
    "cause 3 f",
    "cause 3 correct bit",
    "cause 4",
    "cause 5, room for fewer than three words a head",
    "cause 5, room for three words a head",
    "cause 6 kind 3",
    "cause 6 kind 4",
    "cause 6 kind 5",
    "cause 6 action",
    "cause 6 head",
    "cause 6 sender",
    "cause 6 low bits",
    "cause 6 sender unused",
    "cause 6 serial unused",
    "cause 7",
    "cause 8",
    "cause 9 start already sent",
    "cause 9 start with a candidate",
    "cause 9 start after the vote close",
    "cause 9 start not sent by its sender",
    "cause 9 own start not sent",
    "cause 9 confirm, not sent",
    "cause 9 confirm again",
    "cause 9 turn, not confirmed",
    "cause 9 turn again",
    "cause 9 own vote",
    "cause 9 vote not sent",
    "cause 9 vote close again",
    "cause 9 adjust turn before the vote close",
    "cause 9 adjust turn again",
    "cause 9 adjust turn after the adjust close",
    "cause 9 own adjust",
    "cause 9 adjust not sent",
    "cause 9 adjust close before the vote close",
    "cause 9 adjust close again",
    "premise 0 (all kept)",
    "premise 1",
    "premise 2",
    "premise 3",
    "premise 4",
    "premise 5",
    "premise 6",
    "premise 7",
    "premise 8",
    "only premise 1",
    "only premise 2",
    "only premise 3",
    "only premise 4",
    "only premise 5",
    "only premise 6",
    "only premise 7",
    "only premise 8",
    "premise 3 alone: not delivered earlier",
    "premise 3 alone: tightness",
    "premise 3 alone: delivered later",
    "premise 4 alone: 7",
    "premise 4 alone: 9",
    "premise 5 alone: neither 1, 3, 4 nor a vote",
    "premise 5 alone: a start",
    "premise 5 alone: a vote",
    "premise 6 by a vote that makes a correct head vote",
    "premise 8 by an adjust that makes a correct head adjust",
    "premise 7 alone: turn",
    "premise 7 alone: an adjust",
    "premise 4, a correct head closed early",
    "premise 4, no head closed early",
    "premise 5, a correct head closed early",
    "premise 5, no head closed early",
    "premise 6, a correct head closed early",
    "premise 6, no head closed early",
    "premise 7, a correct head closed early",
    "premise 7, no head closed early",
    "premise 8, a correct head closed early",
    "premise 8, no head closed early",
    "kept, all phases closed early",
    "kept, all phases closed early, a faulty head too",
    "kept, no phase closed early",
    "kept, votes closed both ways",
    "kept, adjust phases closed both ways",
    "kept, votes early and adjust phases by entry",
    "kept, votes by entry and adjust phases early",
    "kept, a faulty head early, all correct ones by entry",
    "kept, votes closed early after a vote close by entry",
    "kept, an adjust phase closed early after one by entry",
    "kept, an early close without 6",
    "kept, an early close without 7",
    "kept, an early close without 9",
    "kept, all with 6, 7 and 9",
    "kept, none with 6 or 9",
    "kept, a spent 6 being no close (premise 5)",
    "kept, a spent 6 being no close (premise 6)",
    "kept, a spent 9 being no close (premise 7)",
    "kept, a spent 9 being no close (premise 8)",
    "kept, a correct head dropped readings",
    "kept, a correct adjuster left out a faulty head's reading",
    "kept, the adjustment another with the readings left out",
    "kept, the adjustment none of its adjuster's readings",
    "kept with drift 4095",
    "kept with drift 0",
    "kept with tightness 65535",
    "kept with tightness 0",
    "kept with 4096 entries",
    "kept with a real time of 0x0FFF0000 or more",
    "kept with a reading of 0x0FFF0000 or more",
    "claim with a faulty head",
    "claim with f faulty heads",
    "claim with looks in the same microsecond",
    "claim with the bound met within a microsecond",
];

/// The number of pairs n, f that the first word allows.
pub const ALLOWED_COUNTS: usize = 71;

/// Counts over many sheets.
#[derive(Default)]
pub struct Cover {
    pub branches: BTreeMap<&'static str, u64>,
    /// By branch of an entry, the sheets in which one takes it.
    pub in_sheets: BTreeMap<&'static str, u64>,
    pub sheets: u64,
    pub accepted: u64,
    pub refused: u64,
    /// Sheets on which the claim was checked, and pairs of looks in all.
    pub claims: u64,
    pub pairs: u64,
    pub bytes: u64,
    pub longest: usize,
    /// Sheets on which fast and plain agree.
    pub agreed: u64,
    /// The pairs n, f of sheets that keep all premises.
    pub counts: BTreeSet<(u32, u32)>,
}

impl Cover {
    fn count(&mut self, name: &'static str) {
        debug_assert!(BRANCHES.contains(&name), "{name}");
        *self.branches.entry(name).or_default() += 1;
    }

    /// The branches that no sheet reached.
    pub fn missing(&self) -> Vec<&'static str> {
        let mut names = BRANCHES.to_vec();
        names.retain(|name| !self.branches.contains_key(name));
        names
    }

    /// Generates one sheet and adds it.
    pub fn sheet(&mut self, seed: u64, index: u64) -> Result<(), String> {
        let made = generate(seed, index);
        self.add(&made)
            .map_err(|why| format!("seed {seed}, sheet {index}, {:?}: {why}", made.aim))
    }

    /// Counts one sheet, compares plain and fast and checks the claim.
    pub fn add(&mut self, made: &Generated) -> Result<(), String> {
        self.sheets += 1;
        self.bytes += made.bytes.len() as u64;
        self.longest = self.longest.max(made.bytes.len());
        if printed(&made.bytes) != fast::printed(&made.bytes) {
            return Err("plain and fast print differently".into());
        }
        let words = match read_words(&made.bytes) {
            Ok(words) => words,
            Err(refusal) => {
                self.refused += 1;
                self.agreed += 1;
                self.count(match refusal.cause.0 {
                    1 => "cause 1",
                    _ => "cause 2 bytes",
                });
                return aimed(made.aim, Err(refusal));
            }
        };
        // The replay with the given buffer, both forms.
        let mut buffer = vec![u32::MAX; made.buffer];
        let plain = replay(&words, &mut buffer);
        match (plain, fast::answer(&words, Some(made.buffer))) {
            (Ok(()), Ok((results, _))) => {
                let (told, rest) = buffer.split_at(HEAD_WORDS * results.len());
                let written: Vec<u32> = results.iter().flat_map(HeadResult::words).collect();
                if told != written || rest.iter().any(|&w| w != u32::MAX) {
                    return Err("plain and fast have different results".into());
                }
            }
            (Err(x), Err(y)) if x == y => {
                if buffer.iter().any(|&w| w != u32::MAX) {
                    return Err("a refused sheet changed the buffer".into());
                }
            }
            _ => return Err("plain and fast refuse differently".into()),
        }
        self.agreed += 1;
        let mut seen = Vec::new();
        let mut watch = Watch::default();
        let run = run_observed(&words, None, &mut |taken| {
            branches(taken, &mut seen);
            watch.entry(taken);
        });
        seen.append(&mut watch.ways);
        for &name in &seen {
            self.count(name);
        }
        for name in BTreeSet::from_iter(seen) {
            *self.in_sheets.entry(name).or_default() += 1;
        }
        match (&run, &plain) {
            (Err(refusal), _) | (Ok(_), Err(refusal)) => {
                self.refused += 1;
                for name in reasons(&words, made.buffer, *refusal) {
                    self.count(name);
                }
            }
            (Ok(_), Ok(())) => self.accepted += 1,
        }
        let Ok(run) = run else {
            return aimed(made.aim, Err(plain.expect_err("refused")));
        };
        for name in (0..run.settings.n).flat_map(|head| ends(&HeadResult::of(&run, head))) {
            self.count(name);
        }
        if all_frames(&run)? {
            self.count("end n² + 2n frames of all heads");
        }
        let premise = first_broken(&run);
        let name = |prefix: &str| {
            let names = BRANCHES.iter().filter(|b| b.starts_with(prefix));
            let mut names = names.filter(|b| b[prefix.len()..].starts_with(&premise.to_string()));
            *names.next().expect("a premise")
        };
        self.count(name("premise "));
        if premise != 0 && (premise + 1..=8).all(|later| keeps(&run, later)) {
            self.count(name("only premise "));
        }
        if let Some(name) = lone_part(&run, premise) {
            self.count(name);
        }
        if premise == 6 && sends_late(&run, 5, 6) {
            self.count("premise 6 by a vote that makes a correct head vote");
        }
        if premise == 8 && sends_late(&run, 8, 9) {
            self.count("premise 8 by an adjust that makes a correct head adjust");
        }
        if let Some(name) = broken_way(&run, premise) {
            self.count(name);
        }
        if premise == 0 {
            for name in kept_ways(&run).into_iter().chain(watch.kept_ways(&run)) {
                self.count(name);
            }
            let settings = run.settings;
            self.counts.insert((settings.n, settings.f));
            for (holds, name) in [
                (settings.drift == 4_095, "kept with drift 4095"),
                (settings.drift == 0, "kept with drift 0"),
                (settings.tightness == 65_535, "kept with tightness 65535"),
                (settings.tightness == 0, "kept with tightness 0"),
                (run.entries.len() == MAX_ENTRIES, "kept with 4096 entries"),
                (
                    run.entries.iter().any(|e| e.time.0 >= 0x0FFF_0000),
                    "kept with a real time of 0x0FFF0000 or more",
                ),
                (
                    run.settings
                        .correct_heads()
                        .iter()
                        .any(|&h| run.records[h as usize].last_reading.0 >= 0x0FFF_0000),
                    "kept with a reading of 0x0FFF0000 or more",
                ),
            ] {
                if holds {
                    self.count(name);
                }
            }
        }
        if let Some(checked) = claim::check(&words) {
            let checked = checked.map_err(|failure| failure.to_string())?;
            self.claims += 1;
            self.pairs += checked.pairs as u64;
            let faulty = run.settings.n - checked.heads as u32;
            if faulty > 0 {
                self.count("claim with a faulty head");
                if faulty == run.settings.f {
                    self.count("claim with f faulty heads");
                }
            }
            if checked.pairs > 0 {
                self.count("claim with looks in the same microsecond");
            }
            if checked.close_pairs > 0 {
                self.count("claim with the bound met within a microsecond");
            }
        }
        match plain {
            Ok(()) => aimed(made.aim, Ok(premise)),
            Err(refusal) => aimed(made.aim, Err(refusal)),
        }
    }
}

/// How a head ended, and which frames it broadcast.
fn ends(result: &HeadResult) -> Vec<&'static str> {
    let (outcome, correction) = (result.outcome, result.correction());
    let Broadcast {
        starts,
        votes,
        adjusts,
    } = result.broadcast;
    let sent = result.broadcast.frames() > 0;
    [
        (outcome == 0, "end outcome 0"),
        (outcome == 1, "end outcome 1"),
        (outcome == 2, "end outcome 2"),
        (correction < 0, "end correction negative"),
        (correction > 0, "end correction positive"),
        (outcome == 0 && sent, "end outcome 0, frames sent"),
        (outcome == 0 && !sent, "end outcome 0, no frame sent"),
        (outcome == 1 && sent, "end outcome 1, frames sent"),
        (outcome == 1 && !sent, "end outcome 1, no frame sent"),
        (starts > 0 && votes == 0, "end a start and no vote"),
        (starts == 0 && votes > 0, "end a vote and no start"),
        (votes > 0 && adjusts == 0, "end a vote and no adjust"),
        (votes == 0 && adjusts > 0, "end an adjust and no vote"),
        (votes > 1, "end two votes or more"),
        (adjusts > 1, "end two adjusts or more"),
        (
            votes > 2 && adjusts > 2,
            "end three votes and three adjusts or more",
        ),
    ]
    .into_iter()
    .filter(|(holds, _)| *holds)
    .map(|(_, name)| name)
    .collect()
}

/// Whether the heads broadcast as many frames as source 000 counts, "at most n² + 2n";
/// they never broadcast more, though a head may first vote for a lower rank.
fn all_frames(run: &Run) -> Result<bool, String> {
    let n = run.settings.n;
    let frames = (0..n).map(|head| Broadcast::of(run, head).frames());
    let (all, most) = (frames.sum::<u32>(), n * n + 2 * n);
    if all > most {
        return Err(format!("the heads broadcast {all} frames"));
    }
    Ok(all == most)
}

/// The one thing asked by the first broken premise that does not hold, where a
/// premise asks several and all others hold.
fn lone_part(run: &Run, premise: u32) -> Option<&'static str> {
    let broken: Vec<usize> = (0..parts(premise))
        .filter(|&part| !keeps_part(run, premise, part))
        .collect();
    match (premise, &broken[..]) {
        (3, [0]) => Some("premise 3 alone: not delivered earlier"),
        (3, [1]) => Some("premise 3 alone: tightness"),
        (3, [2]) => Some("premise 3 alone: delivered later"),
        (4, [1]) => Some("premise 4 alone: 7"),
        (4, [2]) => Some("premise 4 alone: 9"),
        (5, [0]) => Some("premise 5 alone: neither 1, 3, 4 nor a vote"),
        (5, [1]) => Some("premise 5 alone: a start"),
        (5, [2]) => Some("premise 5 alone: a vote"),
        (7, [0]) => Some("premise 7 alone: turn"),
        (7, [1]) => Some("premise 7 alone: an adjust"),
        _ => None,
    }
}

/// Whether a correct head sends a frame at a delivery between two correct
/// closes.
fn sends_late(run: &Run, delivery: u32, close: u32) -> bool {
    let closes = close_indices(run, close);
    let (Some(&first), Some(&last)) = (closes.first(), closes.last()) else {
        return false;
    };
    (first..last).any(|i| {
        let entry = &run.entries[i];
        entry.action == delivery && run.settings.is_correct(entry.head) && run.frames[i].is_some()
    })
}

/// Whether heads closed early in a sheet that breaks premise 4 to 8 first.
fn broken_way(run: &Run, premise: u32) -> Option<&'static str> {
    let is_early = |r: &&Record| r.vote_early || r.adjust_early;
    let early: Vec<&Record> = run.records.iter().filter(is_early).collect();
    let is_correct = |r: &&Record| run.settings.is_correct(r.own);
    match (premise, early.iter().any(is_correct), early.is_empty()) {
        (4, true, _) => Some("premise 4, a correct head closed early"),
        (4, _, true) => Some("premise 4, no head closed early"),
        (5, true, _) => Some("premise 5, a correct head closed early"),
        (5, _, true) => Some("premise 5, no head closed early"),
        (6, true, _) => Some("premise 6, a correct head closed early"),
        (6, _, true) => Some("premise 6, no head closed early"),
        (7, true, _) => Some("premise 7, a correct head closed early"),
        (7, _, true) => Some("premise 7, no head closed early"),
        (8, true, _) => Some("premise 8, a correct head closed early"),
        (8, _, true) => Some("premise 8, no head closed early"),
        _ => None,
    }
}

/// Whether a correct head closes early after a correct close by entry.
fn early_after_entry(run: &Run, close: u32) -> bool {
    let phase = usize::from(close == 9);
    let Some(&first) = close_indices(run, close).first() else {
        return false;
    };
    let is_early = |i: usize, head: u32| run.entries[i].head == head && run.early[i][phase];
    let mut heads = run.settings.correct_heads().into_iter();
    heads.any(|head| {
        let mut indices = 0..run.entries.len();
        indices.find(|&i| is_early(i, head)) > Some(first)
    })
}

/// How heads closed in a sheet that keeps all premises, and what they adopted.
fn kept_ways(run: &Run) -> Vec<&'static str> {
    let is_correct = |r: &&Record| run.settings.is_correct(r.own);
    let (correct, faulty): (Vec<&Record>, Vec<&Record>) = run.records.iter().partition(is_correct);
    let votes = correct.iter().filter(|r| r.vote_early).count();
    let adjusts = correct.iter().filter(|r| r.adjust_early).count();
    let all = correct.len();
    let takes = |head: u32, action: u32| {
        let mut entries = run.entries.iter();
        entries.any(|e| e.head == head && e.action == action)
    };
    let without = |action: u32| {
        correct.iter().any(|r| {
            let is_early = if action == 6 {
                r.vote_early
            } else {
                r.adjust_early
            };
            is_early && !takes(r.own, action)
        })
    };
    let all_take = |action: u32| correct.iter().all(|r| takes(r.own, action));
    let any_takes = |action: u32| correct.iter().any(|r| takes(r.own, action));
    // As if a spent 6 or 9 were the close of its head.
    let counted = Run {
        early: vec![[false; 2]; run.entries.len()],
        ..run.clone()
    };
    let is_both = |some: usize| 0 < some && some < all;
    // A head's vote readings stay as they are after its adjust turn.
    let is_no_reading = |r: &&Record| {
        let adjuster = r.adjuster.map(|a| &run.records[a as usize]);
        adjuster.is_some_and(|a| !a.vote_readings().contains(&r.adjustment))
    };
    let some_early = |r: &&Record| r.vote_early || r.adjust_early;
    [
        (
            votes == all && adjusts == all,
            "kept, all phases closed early",
        ),
        (
            votes == all && adjusts == all && faulty.iter().any(|r| r.adjust_early),
            "kept, all phases closed early, a faulty head too",
        ),
        (
            !run.records.iter().any(|r| some_early(&r)),
            "kept, no phase closed early",
        ),
        (is_both(votes), "kept, votes closed both ways"),
        (is_both(adjusts), "kept, adjust phases closed both ways"),
        (
            votes == all && adjusts == 0,
            "kept, votes early and adjust phases by entry",
        ),
        (
            votes == 0 && adjusts == all,
            "kept, votes by entry and adjust phases early",
        ),
        (
            votes + adjusts == 0 && faulty.iter().any(some_early),
            "kept, a faulty head early, all correct ones by entry",
        ),
        (
            early_after_entry(run, 6),
            "kept, votes closed early after a vote close by entry",
        ),
        (
            early_after_entry(run, 9),
            "kept, an adjust phase closed early after one by entry",
        ),
        (without(6), "kept, an early close without 6"),
        (without(7), "kept, an early close without 7"),
        (without(9), "kept, an early close without 9"),
        (
            all_take(6) && all_take(7) && all_take(9),
            "kept, all with 6, 7 and 9",
        ),
        (!any_takes(6) && !any_takes(9), "kept, none with 6 or 9"),
        (
            !keeps(&counted, 5),
            "kept, a spent 6 being no close (premise 5)",
        ),
        (
            !keeps(&counted, 6),
            "kept, a spent 6 being no close (premise 6)",
        ),
        (
            !keeps_part(&counted, 7, 1),
            "kept, a spent 9 being no close (premise 7)",
        ),
        (
            !keeps(&counted, 8),
            "kept, a spent 9 being no close (premise 8)",
        ),
        (
            correct.first().is_some_and(is_no_reading),
            "kept, the adjustment none of its adjuster's readings",
        ),
    ]
    .into_iter()
    .filter(|(holds, _)| *holds)
    .map(|(_, name)| name)
    .collect()
}

/// Whether a sheet is what it was made for.
fn aimed(aim: Aim, answer: Result<u32, Refusal>) -> Result<(), String> {
    let hit = match (aim, answer) {
        (Aim::Premise(wanted), Ok(premise)) => wanted == premise,
        (Aim::Cause(wanted), Err(refusal)) => wanted == refusal.cause.0,
        (Aim::Damaged, _) => true,
        _ => false,
    };
    if hit {
        Ok(())
    } else {
        Err(format!("the answer is {answer:?}"))
    }
}

/// The branches that an accepted entry takes.
fn branches(taken: &Taken, seen: &mut Vec<&'static str>) {
    let (before, after, entry) = (taken.before, taken.after, taken.entry);
    let kept = before.kept[entry.sender as usize];
    early_branches(taken, seen);
    if is_spent(before, entry.action) {
        return;
    }
    match taken.frame {
        Some(Frame::Vote {
            serial,
            candidate,
            reading,
        }) => {
            seen.push(match reading {
                Some(_) => "vote carries a reading",
                None => "vote carries none",
            });
            if candidate == before.own {
                seen.push("vote for itself");
            } else if serial == 0 {
                seen.push("vote for another first");
            }
            if serial >= 3 {
                seen.push("vote of serial 3 or more");
            }
        }
        Some(Frame::Adjust { serial, .. }) if serial >= 2 => {
            seen.push("adjust of serial 2 or more");
        }
        _ => {}
    }
    match entry.action {
        0 if before.adjust_close => seen.push("0 look after the adjust close"),
        0 => seen.push("0 look"),
        1 => seen.push("1 start sent"),
        2 if before.adjust_close => seen.push("2 no effect after the adjust close"),
        2 => {
            seen.push(match kept.start_reading {
                None => "2 first delivery",
                Some(_) => "2 repeat",
            });
            if kept.start_reading.is_some()
                && before.candidate == Some(entry.sender)
                && after.chosen_start_reading() != after.kept[before.own as usize].vote_reading
            {
                seen.push("2 repeat with the own vote already sent");
            }
            if entry.sender == entry.head {
                seen.push("2 own start");
            }
            if entry.reading.0 == 0 {
                seen.push("2 reading 0");
            }
            if taken.frame.is_some() {
                seen.push("2 becomes candidate");
            }
            if before.vote_close {
                seen.push("2 after the vote close");
            }
        }
        3 => seen.push("3 confirmed"),
        4 => seen.push(if taken.frame.is_some() {
            "4 becomes candidate"
        } else if before.vote_close {
            "4 after the vote close"
        } else if before.candidate.is_some() {
            "4 with a candidate"
        } else {
            "4 too few start readings"
        }),
        5 => vote_branches(taken, seen),
        6 => seen.push(match before.candidate {
            Some(_) => "6 with a candidate",
            None => "6 without a candidate",
        }),
        7 => {
            let readings = before.vote_readings();
            if before.candidate.is_none() {
                seen.push("7 no candidate");
            } else if before.adjuster.is_some() {
                seen.push("7 with an adjuster");
            } else if readings.is_empty() {
                seen.push("7 no vote reading");
            } else {
                seen.push("7 becomes adjuster");
                seen.extend(evens(&readings));
                if readings.len() > 1 && !readings.len().is_multiple_of(2) {
                    seen.push("7 median of an odd count above 1");
                }
            }
        }
        8 => adjust_branches(taken, seen),
        _ => {
            if !before.adjust_turn {
                seen.push("9 without the adjust turn");
            }
            seen.push(if after.outcome() == 2 {
                "9 outcome 2"
            } else if after.candidate.is_none() {
                "9 outcome 1, no candidate"
            } else if after.chosen_start_reading().is_none() {
                "9 outcome 1, no start reading"
            } else {
                "9 outcome 1, no adjuster"
            });
        }
    }
}

/// What closes early at an entry, what is open after an early vote close, and what
/// is spent. In a run a head without a candidate has taken no vote, so that its own
/// vote closes nothing, and likewise its own adjust: only a vote, an adjust, or a
/// vote close by entry after all adjusts ends in an early close.
fn early_branches(taken: &Taken, seen: &mut Vec<&'static str>) {
    let (before, after, action) = (taken.before, taken.after, taken.entry.action);
    let votes = after.vote_early && !before.vote_early;
    let adjusts = after.adjust_early && !before.adjust_early;
    match (action, votes, adjusts) {
        (_, false, false) => {}
        (5, true, false) => seen.push("5 closes the vote early"),
        (5, true, true) => seen.push("5 closes both phases early"),
        (6, false, true) => seen.push("6 closes the adjust phase early"),
        (8, false, true) if before.vote_early => {
            seen.push("8 closes the adjust phase early after an early vote close");
        }
        (8, false, true) => {
            seen.push("8 closes the adjust phase early after a vote close by entry");
        }
        _ => unreachable!("an early close at action {action}"),
    }
    let is_spent = is_spent(before, action);
    match action {
        6 if is_spent => seen.push("6 spent"),
        7 if is_spent => {
            seen.push("7 spent");
            if before.adjust_turn {
                seen.push("7 spent, the turn already taken");
            }
        }
        9 if is_spent => seen.push("9 spent"),
        7 if before.vote_early => seen.push("7 after an early vote close"),
        9 if before.vote_early => seen.push("9 after an early vote close"),
        _ => {}
    }
}

fn vote_branches(taken: &Taken, seen: &mut Vec<&'static str>) {
    let (before, after, entry) = (taken.before, taken.after, taken.entry);
    let (old, new) = (
        before.kept[entry.sender as usize],
        after.kept[entry.sender as usize],
    );
    if before.vote_close {
        seen.push("5 no effect after the vote close");
        return;
    }
    if let Some(last) = old.vote_serial {
        if entry.serial == last {
            seen.push("5 no effect, same serial");
            return;
        }
        if entry.serial < last {
            seen.push("5 no effect, lower serial");
            if entry.serial == 0 {
                seen.push("5 no effect, serial 0 after a higher one");
            }
            return;
        }
        seen.push("5 takes a later serial");
    }
    if new.vote_reading.is_none() {
        seen.push("5 takes none");
        if old.vote_reading.is_some() {
            seen.push("5 none replaces a reading");
        }
    }
    match (before.candidate, taken.frame) {
        (None, _) => seen.push("5 adopts, no candidate before"),
        (_, Some(_)) => seen.push("5 adopts a higher rank"),
        (held, None) => seen.push(match taken.delivered {
            Some(Frame::Vote { candidate, .. }) if Some(candidate) == held => {
                "5 keeps the same candidate"
            }
            _ => "5 keeps its higher rank",
        }),
    }
}

fn adjust_branches(taken: &Taken, seen: &mut Vec<&'static str>) {
    let (before, entry) = (taken.before, taken.entry);
    if before.adjust_close {
        seen.push("8 no effect after the adjust close");
        return;
    }
    if let Some(last) = before.kept[entry.sender as usize].adjust_serial {
        if entry.serial == last {
            seen.push("8 no effect, same serial");
            return;
        }
        if entry.serial < last {
            seen.push("8 no effect, lower serial");
            return;
        }
        seen.push("8 takes a later serial");
    }
    if !before.vote_close {
        seen.push("8 before the vote close");
    }
    match (before.adjuster, taken.frame) {
        (None, _) => seen.push("8 adopts, no adjuster before"),
        (_, Some(_)) => seen.push("8 adopts a higher rank"),
        (held, None) => seen.push(match taken.delivered {
            Some(Frame::Adjust { adjuster, .. }) if Some(adjuster) == held => {
                "8 keeps the same adjuster"
            }
            _ => "8 keeps its higher rank",
        }),
    }
}

/// Why words are refused with a buffer of this length, in the finer parts of each cause.
fn reasons(words: &[u32], buffer: usize, refusal: Refusal) -> Vec<&'static str> {
    let place = refusal.place;
    match refusal.cause.0 {
        1 => vec!["cause 1"],
        2 if words.len() < 2 => vec!["cause 2 fewer than 2 words"],
        2 => vec!["cause 2 no whole number"],
        3 => {
            let (n, f) = (bits(words[0], 27, 20), bits(words[0], 19, 16));
            vec![if kind(words[0]) != 1 {
                "cause 3 kind"
            } else if n < 2 {
                "cause 3 n below 2"
            } else if n > 16 {
                "cause 3 n above 16"
            } else if !counts_allowed(n, f) {
                "cause 3 f"
            } else {
                "cause 3 correct bit"
            }]
        }
        4 => vec!["cause 4"],
        5 => {
            let three = 3 * bits(words[0], 27, 20) as usize;
            vec![if buffer < three {
                "cause 5, room for fewer than three words a head"
            } else {
                "cause 5, room for three words a head"
            }]
        }
        6 => {
            let (n, third) = (bits(words[0], 27, 20), words[place + 2]);
            let action = bits(third, 27, 24);
            vec![if kind(words[place]) != 3 {
                "cause 6 kind 3"
            } else if kind(words[place + 1]) != 4 {
                "cause 6 kind 4"
            } else if kind(third) != 5 {
                "cause 6 kind 5"
            } else if action > 9 {
                "cause 6 action"
            } else if bits(third, 23, 20) >= n {
                "cause 6 head"
            } else if bits(third, 19, 16) >= n && has_sender(action) {
                "cause 6 sender"
            } else if bits(third, 11, 0) != 0 {
                "cause 6 low bits"
            } else if bits(third, 19, 16) != 0 && !has_sender(action) {
                "cause 6 sender unused"
            } else {
                debug_assert!(!has_serial(action));
                "cause 6 serial unused"
            }]
        }
        7 => vec!["cause 7"],
        8 => vec!["cause 8"],
        _ => {
            let before = run(&words[..place], None).expect("accepted up to the place");
            let n = before.settings.n;
            let entry = read_entry(&words[place..place + 3], n).expect("not cause 6");
            closed_reasons(&before.records, entry.action, entry.head, entry.sender)
        }
    }
}

/// The reason for which an entry is closed, or its frame not sent, where it is
/// the only one.
pub fn closed_reasons(
    records: &[Record],
    action: u32,
    head: u32,
    sender: u32,
) -> Vec<&'static str> {
    let h = &records[head as usize];
    if is_spent(h, action) {
        return Vec::new();
    }
    let own = head == sender;
    let all = match action {
        1 => vec![
            (h.start_sent, "cause 9 start already sent"),
            (h.candidate.is_some(), "cause 9 start with a candidate"),
            (h.vote_close, "cause 9 start after the vote close"),
        ],
        2 => vec![
            (!own, "cause 9 start not sent by its sender"),
            (own, "cause 9 own start not sent"),
        ],
        3 => vec![
            (!h.start_sent, "cause 9 confirm, not sent"),
            (h.confirmed, "cause 9 confirm again"),
        ],
        4 => vec![
            (!h.confirmed, "cause 9 turn, not confirmed"),
            (h.vote_turn, "cause 9 turn again"),
        ],
        5 => vec![(own, "cause 9 own vote"), (!own, "cause 9 vote not sent")],
        6 => vec![(true, "cause 9 vote close again")],
        7 => vec![
            (!h.vote_close, "cause 9 adjust turn before the vote close"),
            (h.adjust_turn, "cause 9 adjust turn again"),
            (h.adjust_close, "cause 9 adjust turn after the adjust close"),
        ],
        8 => vec![
            (own, "cause 9 own adjust"),
            (!own, "cause 9 adjust not sent"),
        ],
        _ => vec![
            (!h.vote_close, "cause 9 adjust close before the vote close"),
            (h.adjust_close, "cause 9 adjust close again"),
        ],
    };
    let holding: Vec<&'static str> = all.iter().filter(|r| r.0).map(|r| r.1).collect();
    if holding.len() == 1 {
        holding
    } else {
        Vec::new()
    }
}
