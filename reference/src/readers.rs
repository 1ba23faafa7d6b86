//! Document 02, No. 7: the two readers of result words. "The carriage display passes over
//! kinds other than 6 to 8 and gives, for one head asked, outcome to correction as the
//! replay program prints them; the planner's reader wants all four and gives the three
//! counts besides."

use crate::words::{bits, kind, Cause};

/// Outcome, candidate, adjuster, adjustment, start reading and correction.
pub const SHOWN_NUMBERS: usize = 6;
/// These, and then starts, votes and adjusts.
pub const TOLD_NUMBERS: usize = 9;

/// The words of the head asked, where each of n heads has so many, of kinds from 6 on.
/// The tests are of all heads' words.
fn asked(n: u32, head: u32, words: &[u32], each: usize) -> Result<&[u32], Cause> {
    // "Each tests n and that the head is below it (cause 3)"
    if !(2..=16).contains(&n) || head >= n {
        return Err(Cause(3));
    }
    // "then its length, 4n, or 3n for the display once unknown kinds are dropped (2)"
    if words.len() != each * n as usize {
        return Err(Cause(2));
    }
    // "then the kinds in their places (6)"
    let is_in_place = |(place, &word): (usize, &u32)| kind(word) as usize == 6 + place % each;
    if !words.iter().enumerate().all(is_in_place) {
        return Err(Cause(6));
    }
    let first = each * head as usize;
    Ok(&words[first..first + each])
}

/// "outcome to correction as the replay program prints them", from the words of kinds 6
/// to 8.
fn ending(words: &[u32]) -> [i64; SHOWN_NUMBERS] {
    let outcome = bits(words[0], 27, 24);
    let adjustment = i64::from(bits(words[1], 27, 0));
    let start = i64::from(bits(words[2], 27, 0));
    // "the correction is printed as 0 unless the outcome is 2"
    let correction = if outcome == 2 { adjustment - start } else { 0 };
    [
        outcome.into(),
        bits(words[0], 19, 16).into(),
        bits(words[0], 15, 12).into(),
        adjustment,
        start,
        correction,
    ]
}

/// The carriage display.
pub fn display(n: u32, head: u32, words: &[u32]) -> Result<[i64; SHOWN_NUMBERS], Cause> {
    // "passes over kinds other than 6 to 8"
    let is_known = |word: &u32| (6..=8).contains(&kind(*word));
    let known: Vec<u32> = words.iter().copied().filter(is_known).collect();
    Ok(ending(asked(n, head, &known, 3)?))
}

/// The planner's reader.
pub fn plan(n: u32, head: u32, words: &[u32]) -> Result<[i64; TOLD_NUMBERS], Cause> {
    let own = asked(n, head, words, 4)?;
    let [outcome, candidate, adjuster, adjustment, start, correction] = ending(own);
    // "kind 9: bits 27–20 starts, 19–12 votes, 11–4 adjusts"
    let [starts, votes, adjusts] =
        [(27, 20), (19, 12), (11, 4)].map(|(high, low)| bits(own[3], high, low).into());
    Ok([
        outcome, candidate, adjuster, adjustment, start, correction, starts, votes, adjusts,
    ])
}
