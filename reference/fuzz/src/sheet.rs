//! A whole sheet: big-endian words; a single byte behind the last is the length of
//! the result buffer. The words behind the first also go to the readers of result
//! words: n and the head asked are where a sheet has n and f. So do the result words
//! of the sheet, for every head.

use reference::random::Random;
use reference::results::{HEAD_WORDS, RESULT_WORDS};
use reference::sheets::{compare, compare_readers, Answered};
use reference::words::bits;

use crate::mutate::mutated;

/// The plain form takes the square of the entries, so it gets short sheets only.
const PLAIN_WORDS: usize = 500;

/// The words, and the bytes behind the last whole one.
pub fn split(data: &[u8]) -> (Vec<u32>, &[u8]) {
    let whole = data.chunks_exact(4);
    let rest = whole.remainder();
    let words = whole.map(|b| u32::from_be_bytes([b[0], b[1], b[2], b[3]]));
    (words.collect(), rest)
}

/// n and the head asked, as the first word of an input names them.
pub fn named(first: u32) -> (u32, u32) {
    (bits(first, 27, 20), bits(first, 19, 16))
}

fn read(n: u32, head: u32, words: &[u32]) -> Result<(), String> {
    let (shown, told) = compare_readers(n, head, words)?;
    crate::count(32 + shown.err().map_or(0, |cause| cause.0));
    crate::count(40 + told.err().map_or(0, |cause| cause.0));
    Ok(())
}

/// The sheet that the bytes are, and what is read: any difference is given back.
fn run(data: &[u8]) -> Result<(), String> {
    let (words, rest) = split(data);
    let buffer = match rest {
        [length] => usize::from(length % 80),
        _ => RESULT_WORDS,
    };
    let Answered { cause, judged, out } = compare(&words, buffer, words.len() <= PLAIN_WORDS)?;
    crate::count(judged);
    if cause == 5 {
        // The judge does not know cause 5, so its number is free for it.
        crate::count(16 + 5);
    }
    let [first, behind @ ..] = &words[..] else {
        return Ok(());
    };
    let (n, head) = named(*first);
    read(n, head, behind)?;
    if cause == 0 {
        let results = &out[..HEAD_WORDS * n as usize];
        (0..n).try_for_each(|head| read(n, head, results))?;
    }
    Ok(())
}

/// # Safety
/// Called by the fuzzer, with `data` to `size` bytes.
#[no_mangle]
pub unsafe extern "C" fn LLVMFuzzerTestOneInput(data: *const u8, size: usize) -> i32 {
    if let Err(what) = run(unsafe { crate::lent(data, size) }) {
        panic!("difference: {what}");
    }
    0
}

extern "C" {
    fn LLVMFuzzerMutate(data: *mut u8, size: usize, max: usize) -> usize;
}

/// # Safety
/// Called by the fuzzer, with `data` to `max` bytes of which `size` are in use.
#[no_mangle]
pub unsafe extern "C" fn LLVMFuzzerCustomMutator(
    data: *mut u8,
    size: usize,
    max: usize,
    seed: u32,
) -> usize {
    let mut random = Random::new(seed.into(), size as u64);
    if random.chance(1, 8) {
        return unsafe { LLVMFuzzerMutate(data, size, max) };
    }
    let bytes = mutated(&mut random, unsafe { crate::lent(data, size) }, max);
    unsafe { std::ptr::copy_nonoverlapping(bytes.as_ptr(), data, bytes.len()) };
    bytes.len()
}
