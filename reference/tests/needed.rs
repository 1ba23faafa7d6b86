//! The sheets `needed-1` to `needed-8` of the folder `samples`: no premise can be left
//! out. Each is accepted, breaks one premise and keeps the seven others, and the third
//! point's claim fails on it; and none of its entries can be left out.

use std::collections::HashMap;
use std::fs;

use reference::claim::Failure;
use reference::program::read_words;
use reference::recorder::record;
use reference::sheet::run;
use reference::shortest::shown;
use reference::words::Settings;

/// Each premise, the clauses of the claim that fail on its sheet, and one for whose
/// failure all entries are needed; none where it is so for every clause.
const NEEDED: [(u32, &[&str], Option<&str>); 8] = [
    (1, &["clock"], None),
    (2, &["D"], None),
    (3, &["clock"], None),
    (4, &["clock"], None),
    (5, &["clock"], None),
    (6, &["candidate"], None),
    (7, &["adjuster", "adjustment"], Some("adjustment")),
    (8, &["adjuster", "adjustment"], None),
];

/// The words of a premise's sheet.
fn needed(premise: u32) -> Vec<u32> {
    let samples = concat!(env!("CARGO_MANIFEST_DIR"), "/../samples");
    let bytes = fs::read(format!("{samples}/needed-{premise}.sheet")).unwrap();
    read_words(&bytes).unwrap()
}

/// The clause that fails.
fn clause(failure: &Failure) -> &'static str {
    match failure {
        Failure::NoClock { .. } => "clock",
        Failure::Candidates(..) => "candidate",
        Failure::Adjusters(..) => "adjuster",
        Failure::Adjustments(..) => "adjustment",
        Failure::Words(..) => "words",
        Failure::Apart { .. } => "D",
    }
}

/// The clauses that fail on a sheet that breaks this premise alone.
fn clauses(words: &[u32], premise: u32) -> Vec<&'static str> {
    shown(words, premise).iter().map(clause).collect()
}

#[test]
fn each_premise_is_needed() {
    for (premise, fail, _) in NEEDED {
        assert_eq!(
            clauses(&needed(premise), premise),
            fail,
            "premise {premise}"
        );
    }
}

/// Every accepted sheet that is made of `front` and some of the entries `rest`, in their
/// order. "One refused entry refuses the sheet", so what begins with a refused list is
/// refused too.
fn accepted(front: &[u32], rest: &[u32], see: &mut dyn FnMut(&[u32])) {
    if run(front, None).is_err() {
        return;
    }
    if rest.is_empty() {
        return see(front);
    }
    let (entry, rest) = rest.split_at(3);
    accepted(&[front, entry].concat(), rest, see);
    accepted(front, rest, see);
}

#[test]
fn no_entry_can_be_left_out() {
    for (premise, _, asked) in NEEDED {
        let words = needed(premise);
        accepted(&words[..2], &words[2..], &mut |sheet| {
            let mut fail = clauses(sheet, premise);
            fail.retain(|clause| asked.is_none_or(|asked| asked == *clause));
            let whole = sheet.len() == words.len();
            assert_eq!(!fail.is_empty(), whole, "premise {premise}: {sheet:X?}");
        });
    }
}

/// The crate's text of the eight sheets: lists of six numbers an entry, under names, and
/// for each sheet a line `of N F CORRECT (NAME ++ NAME ..)`.
const TEXT: &str = include_str!("../../crates/premises_needed/specs/Sheets.antt");

/// The lists of the crate's text by name: `abbrev NAME : List ℕ`, `NAME = 1000 ∷ .. []`.
fn lists() -> HashMap<&'static str, Vec<u32>> {
    let named = TEXT.split("abbrev ").filter_map(|part| {
        let (name, rest) = part.split_once(" : List ℕ\n")?;
        let (list, _) = rest.split_once("[]")?;
        let numbers = list.split_whitespace().filter_map(|x| x.parse().ok());
        Some((name, numbers.collect()))
    });
    named.collect()
}

/// A sheet's words, from its line in the crate's text.
fn sheet_in(line: &str, lists: &HashMap<&str, Vec<u32>>) -> Option<Vec<u32>> {
    let line = line.trim_start_matches([' ', '∷']).strip_prefix("of ")?;
    let numbers = line.split(' ').map_while(|x| x.parse().ok());
    let [n, f, correct] = numbers.collect::<Vec<u32>>()[..] else {
        return None;
    };
    let names = line.split(['(', ')']).nth(1)?.split(" ++ ");
    let named = names.filter_map(|name| lists.get(name));
    let entries: Vec<u32> = named.flatten().copied().collect();
    let settings = Settings {
        n,
        f,
        correct,
        drift: 100,
        tightness: 10,
    };
    let mut words = vec![0; 2 + entries.len() / 2];
    record(&settings, &entries, &mut words).unwrap();
    Some(words)
}

/// The samples are the sheets of which the crate `premises_needed` proves it.
#[test]
fn samples_are_those_proved() {
    let lists = lists();
    let sheets = TEXT.lines().filter_map(|line| sheet_in(line, &lists));
    let samples = (1..=8).map(needed);
    assert_eq!(sheets.collect::<Vec<_>>(), samples.collect::<Vec<_>>());
}
