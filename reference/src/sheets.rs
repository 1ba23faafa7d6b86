//! A whole sheet at the proved static library, beside the reference; those that the
//! library writes or drafts; and its readers of result words.

use crate::fast;
use crate::judge::judge;
use crate::readers::{display, plan, SHOWN_NUMBERS, TOLD_NUMBERS};
use crate::results::HeadResult;
use crate::sheet::replay;
use crate::words::{Cause, Refusal};

/// What stands in the result buffer before a call, and behind its end.
const UNTOUCHED: u32 = 0xA5C3_0F69;
/// What stands in a reader's numbers before a call, and behind the last.
const UNREAD: i64 = -0x5A3C_F096_A5C3_0F69;

extern "C" {
    fn daisarnica_replay_and_judge(
        sheet: *const u32,
        words: usize,
        out: *mut u32,
        out_words: usize,
        answer: *mut [u32; 5],
    ) -> u32;

    fn daisarnica_write_sheet(
        n: u32,
        f: u32,
        correct: u32,
        drift: u32,
        tightness: u32,
        numbers: *const u32,
        count: usize,
        out: *mut u32,
        out_words: usize,
    ) -> u32;

    fn daisarnica_draft_sheet(
        n: u32,
        f: u32,
        first: u32,
        spacing: u32,
        out: *mut u32,
        out_words: usize,
    ) -> u32;

    fn daisarnica_display(
        n: u32,
        head: u32,
        words: *const u32,
        count: usize,
        shown: *mut i64,
    ) -> u32;

    fn daisarnica_plan(n: u32, head: u32, words: *const u32, count: usize, told: *mut i64) -> u32;
}

/// A reader of the library.
type Reader = unsafe extern "C" fn(u32, u32, *const u32, usize, *mut i64) -> u32;

/// One call of a reader of N numbers: 0 or the cause, and the numbers.
fn call<const N: usize>(reader: Reader, n: u32, head: u32, words: &[u32]) -> (u32, [i64; N]) {
    let mut numbers = [[UNREAD; N]; 2];
    let (file, room) = (words.as_ptr(), numbers.as_mut_ptr().cast());
    // The first pointer is to a slice of the length that is given, the second to at
    // least N numbers.
    let cause = unsafe { reader(n, head, file, words.len(), room) };
    assert_eq!(numbers[1], [UNREAD; N], "written behind the last number");
    (cause, numbers[0])
}

/// One call of the library's display.
pub fn proved_display(n: u32, head: u32, words: &[u32]) -> (u32, [i64; SHOWN_NUMBERS]) {
    call(daisarnica_display, n, head, words)
}

/// One call of the library's reader for planners.
pub fn proved_plan(n: u32, head: u32, words: &[u32]) -> (u32, [i64; TOLD_NUMBERS]) {
    call(daisarnica_plan, n, head, words)
}

/// A reader's answer as the library gives it: after a refusal all numbers are 0.
fn in_numbers<const N: usize>(read: Result<[i64; N], Cause>) -> (u32, [i64; N]) {
    match read {
        Ok(numbers) => (0, numbers),
        Err(cause) => (cause.0, [0; N]),
    }
}

/// What the display and the reader for planners answer.
pub type Read = (
    Result<[i64; SHOWN_NUMBERS], Cause>,
    Result<[i64; TOLD_NUMBERS], Cause>,
);

/// Both readers on the same words, at the library and at the reference.
pub fn compare_readers(n: u32, head: u32, words: &[u32]) -> Result<Read, String> {
    let read = (display(n, head, words), plan(n, head, words));
    let expected = (in_numbers(read.0), in_numbers(read.1));
    let found = (proved_display(n, head, words), proved_plan(n, head, words));
    if found == expected {
        Ok(read)
    } else {
        Err(format!("read as {found:?}, not {expected:?}"))
    }
}

/// One call of the library's recorder: 0 or the cause. `given` is n, f, correct
/// bits, drift and tightness.
pub fn proved_recording(given: &[u32; 5], numbers: &[u32], out: &mut [u32]) -> u32 {
    let [n, f, correct, drift, tightness] = *given;
    let (list, buffer) = (numbers.as_ptr(), out.as_mut_ptr());
    let (count, room) = (numbers.len(), out.len());
    // The pointers are to slices of the lengths that are given.
    unsafe { daisarnica_write_sheet(n, f, correct, drift, tightness, list, count, buffer, room) }
}

/// One call of the library's drafter: 0 or the cause. `given` is n, f, the first real
/// time and the spacing.
pub fn proved_draft(given: &[u32; 4], out: &mut [u32]) -> u32 {
    let [n, f, first, spacing] = *given;
    // The pointer is to a slice of the length that is given.
    unsafe { daisarnica_draft_sheet(n, f, first, spacing, out.as_mut_ptr(), out.len()) }
}

/// One call of the library: the judge's number, and the five numbers of both answers.
pub fn proved(words: &[u32], out: &mut [u32]) -> (u32, [u32; 5]) {
    let mut answer = [9; 5];
    let (sheet, buffer) = (words.as_ptr(), out.as_mut_ptr());
    // The pointers are to slices of the lengths that are given.
    let judged =
        unsafe { daisarnica_replay_and_judge(sheet, words.len(), buffer, out.len(), &mut answer) };
    (judged, answer)
}

/// All that a call leaves and returns.
#[derive(Debug, PartialEq, Eq)]
struct Answer {
    /// The result buffer, and a word behind its end.
    out: Vec<u32>,
    replayed: Result<(), Refusal>,
    judged: Result<u32, Refusal>,
}

impl Answer {
    /// Replay's cause and place, judge's cause and place, first broken premise;
    /// and the judge's answer as one number.
    fn numbers(&self) -> ([u32; 5], u32) {
        let mut numbers = [0; 5];
        if let Err(refusal) = self.replayed {
            numbers[0] = refusal.cause.0;
            numbers[1] = refusal.place as u32;
        }
        match self.judged {
            Ok(premise) => {
                numbers[4] = premise;
                (numbers, premise)
            }
            Err(refusal) => {
                numbers[2] = refusal.cause.0;
                numbers[3] = refusal.place as u32;
                (numbers, 16 + refusal.cause.0)
            }
        }
    }
}

fn plain_answer(words: &[u32], buffer: usize) -> Answer {
    let mut out = vec![UNTOUCHED; buffer + 1];
    let replayed = replay(words, &mut out[..buffer]);
    let judged = judge(words);
    Answer {
        out,
        replayed,
        judged,
    }
}

fn fast_answer(words: &[u32], buffer: usize) -> Answer {
    let mut out = vec![UNTOUCHED; buffer + 1];
    let replayed = fast::answer(words, Some(buffer)).map(|(results, _)| {
        let written = results.iter().flat_map(HeadResult::words);
        out.iter_mut()
            .zip(written)
            .for_each(|(to, word)| *to = word);
    });
    let judged = fast::answer(words, None).map(|(_, premise)| premise);
    Answer {
        out,
        replayed,
        judged,
    }
}

/// What the library answers as the reference does.
pub struct Answered {
    /// The replay's cause, or 0, and the judge's number.
    pub cause: u32,
    pub judged: u32,
    /// What is left in the result buffer.
    pub out: Vec<u32>,
}

/// One sheet at the library and at the fast form, with a result buffer of this
/// length; at the plain form too where it is asked.
pub fn compare(words: &[u32], buffer: usize, plainly: bool) -> Result<Answered, String> {
    let expected = fast_answer(words, buffer);
    if plainly && plain_answer(words, buffer) != expected {
        return Err(format!("plain and fast form differ, not {expected:?}"));
    }
    let mut out = vec![UNTOUCHED; buffer + 1];
    let (judged, answer) = proved(words, &mut out[..buffer]);
    if (answer, judged) != expected.numbers() || out != expected.out {
        return Err(format!("{answer:?} {judged} {out:x?}, not {expected:x?}"));
    }
    out.truncate(buffer);
    Ok(Answered {
        cause: answer[0],
        judged,
        out,
    })
}
