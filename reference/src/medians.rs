//! Document 02, No. 6, "Even counts": what a median of an even count is taken of, for
//! the programs that count it, and readings to take medians of.

use crate::random::Random;
use crate::words::{Reading, TIME_LIMIT};

/// What tells the half-sum from other numbers that the readings could give.
pub const EVENS: [&str; 6] = [
    "7 median of an even count",
    "7 median of an even count, the middle readings apart with an even sum",
    "7 median of an even count, the middle readings with an odd sum",
    "7 median of an even count, the middle readings' sum 2²⁸ or more",
    "7 median of an even count above 2, the middle readings equal",
    "7 median of an even count above 2, other than half the sum of the first and the last",
];

/// Which of `EVENS` hold of these readings; none of an odd count.
pub fn evens(readings: &[Reading]) -> Vec<&'static str> {
    let mut in_order: Vec<u32> = readings.iter().map(|r| r.0).collect();
    in_order.sort_unstable();
    let count = in_order.len();
    if count == 0 || !count.is_multiple_of(2) {
        return Vec::new();
    }
    let (low, high) = (in_order[count / 2 - 1], in_order[count / 2]);
    let sum = low + high;
    let ends = in_order[0] + in_order[count - 1];
    let holds = [
        true,
        low < high && sum.is_multiple_of(2),
        !sum.is_multiple_of(2),
        sum >= TIME_LIMIT,
        count > 2 && low == high,
        count > 2 && sum / 2 != ends / 2,
    ];
    let named = EVENS.into_iter().zip(holds);
    named.filter(|n| n.1).map(|n| n.0).collect()
}

/// So many readings: any, close ones or equal ones, often next to 0 or to 2²⁸.
pub fn draw_readings(random: &mut Random, count: usize) -> Vec<u32> {
    let limit = u64::from(TIME_LIMIT);
    let width = random.pick(&[1, 2, 3, 100, limit]);
    let any = random.below(limit - width + 1);
    let least = random.pick(&[0, limit - width, any]);
    let mut draw = || (least + random.below(width)) as u32;
    (0..count).map(|_| draw()).collect()
}
