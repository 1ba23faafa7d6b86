//! The last line that the trace program prints: the cause and place at which a
//! sheet is turned back, or its first broken premise and where that first fails.

use crate::judge::{judge, keeps};
use crate::program::{read_words, refused_text};
use crate::sheet::{run, Run};
use crate::words::Refusal;

/// The last line that the program prints for the bytes on its standard input.
pub fn last_line(bytes: &[u8]) -> String {
    answer(bytes).unwrap_or_else(refused_text)
}

/// Premise 1 asks of the first word and premise 4 of the whole sheet, so no entry
/// breaks them; each other one fails at an entry.
fn answer(bytes: &[u8]) -> Result<String, Refusal> {
    let words = read_words(bytes)?;
    Ok(match judge(&words)? {
        0 => "premises 0\n".into(),
        premise @ (1 | 4) => format!("premises {premise} end\n"),
        premise => format!("premises {premise} entry {}\n", entry(&words, premise)),
    })
}

/// The index, from 0, of the entry at which a broken premise first fails: the
/// least such that the sheet cut after it breaks the premise taken by itself,
/// whatever the other premises say of the cut sheet.
fn entry(words: &[u32], premise: u32) -> usize {
    (0..(words.len() - 2) / 3)
        .find(|&index| !keeps(&cut_after(words, index), premise))
        .expect("the sheet cut after its last entry is the whole sheet")
}

/// The run of the sheet cut after an entry: of the entries up to it.
fn cut_after(words: &[u32], index: usize) -> Run {
    run(&words[..2 + 3 * (index + 1)], None).expect("a part of an accepted sheet")
}
