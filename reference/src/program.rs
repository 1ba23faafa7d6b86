//! What the replay program prints.

use crate::judge::judge;
use crate::results::{read_results, HeadResult, RESULT_WORDS};
use crate::sheet::replay;
use crate::words::{Cause, Refusal};

/// "above 49,160 bytes is cause 1, tested first".
pub const MAX_BYTES: usize = 49_160;

/// "reads big-endian words on standard input (above 49,160 bytes is cause 1,
/// tested first; a length not a multiple of 4 is cause 2)".
pub fn read_words(bytes: &[u8]) -> Result<Vec<u32>, Refusal> {
    let refused = |number| Refusal {
        cause: Cause(number),
        place: 0,
    };
    if bytes.len() > MAX_BYTES {
        return Err(refused(1));
    }
    if !bytes.len().is_multiple_of(4) {
        return Err(refused(2));
    }
    Ok(bytes
        .chunks_exact(4)
        .map(|b| u32::from_be_bytes([b[0], b[1], b[2], b[3]]))
        .collect())
}

/// "per head: head, outcome, candidate, adjuster, adjustment, start reading,
/// correction; then `premises` and the first broken premise or 0".
pub fn accepted_text(results: &[HeadResult], premise: u32) -> String {
    let mut text = String::new();
    for r in results {
        text += &format!(
            "{} {} {} {} {} {} {}\n",
            r.head,
            r.outcome,
            r.candidate,
            r.adjuster,
            r.adjustment,
            r.start,
            r.correction()
        );
    }
    text + &format!("premises {premise}\n")
}

/// "or only `refused`, number, place."
pub fn refused_text(refusal: Refusal) -> String {
    format!("refused {} {}\n", refusal.cause.0, refusal.place)
}

/// What the program prints for the bytes on its standard input.
pub fn printed(bytes: &[u8]) -> String {
    answer(bytes).unwrap_or_else(refused_text)
}

fn answer(bytes: &[u8]) -> Result<String, Refusal> {
    let words = read_words(bytes)?;
    let mut buffer = [0; RESULT_WORDS];
    replay(&words, &mut buffer)?;
    let premise = judge(&words)?;
    let n = crate::sheet::check_front(&words, None)?.n;
    Ok(accepted_text(&read_results(&buffer, n), premise))
}
