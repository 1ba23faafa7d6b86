//! What the fuzzer calls: each input goes to a proved static library and to the
//! reference, and a difference ends the run. `run.sh` builds and runs it.
#![cfg(any(feature = "step", feature = "sheet"))]

use std::sync::atomic::{AtomicU64, Ordering::Relaxed};

#[cfg(feature = "sheet")]
mod mutate;
#[cfg(feature = "sheet")]
mod sheet;
#[cfg(feature = "step")]
mod step;

/// How often each answer was given: a cause for one head; for a sheet the judge's
/// number, and 21 for the replay's cause 5; for words that are read 32 and the display's
/// cause, and 40 and that of the planner's reader. They show how deep the inputs go.
static ANSWERS: [AtomicU64; 48] = [const { AtomicU64::new(0) }; 48];

fn count(answer: u32) {
    ANSWERS[answer as usize].fetch_add(1, Relaxed);
}

extern "C" fn print_answers() {
    let counts = ANSWERS.iter().map(|a| a.load(Relaxed)).enumerate();
    let given: Vec<_> = counts.filter(|c| c.1 > 0).collect();
    eprintln!("answers, each with its count: {given:?}");
}

extern "C" {
    fn atexit(call: extern "C" fn()) -> i32;
}

/// Called by the fuzzer at its start; it ends by the C library's exit.
#[no_mangle]
pub extern "C" fn LLVMFuzzerInitialize(_: *mut i32, _: *mut *mut *mut u8) -> i32 {
    unsafe { atexit(print_answers) }
}

/// The bytes that the fuzzer lends.
///
/// # Safety
/// `data` is to `size` bytes, as the fuzzer promises.
unsafe fn lent<'a>(data: *const u8, size: usize) -> &'a [u8] {
    if size == 0 {
        return &[];
    }
    unsafe { std::slice::from_raw_parts(data, size) }
}
