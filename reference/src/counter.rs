//! "Board counter".

use crate::words::{Cause, Reading, TIME_LIMIT};

/// "The counter runs on past 4,294,967,295 to 0. A reading is counter now
/// minus counter at the base, wrapped to 32 bits." Cause 11: "counter
/// difference of 2²⁸ or more".
pub fn counter_reading(now: u32, base: u32) -> Result<Reading, Cause> {
    let difference = now.wrapping_sub(base);
    if difference >= TIME_LIMIT {
        return Err(Cause(11));
    }
    Ok(Reading(difference))
}
