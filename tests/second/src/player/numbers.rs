//! "Numbers", and the other limits of document 01, each named once.

use std::ops::RangeInclusive;

/// "Threads 0 to 7."
pub const THREADS: usize = 8;
/// "Keys 0 to 63."
pub const KEYS: usize = 64;
/// "Nodes 0 to 127."
pub const NODES: usize = 128;
/// "A thread has phase 0 to 25".
pub const PHASES: usize = 26;

/// "Begun operations per run: at most 1,000,000."
pub const MOST_BEGUN: u32 = 1_000_000;
/// "commit numbers at most 1,000,000"
pub const MOST_COMMIT_NUMBER: u32 = 1_000_000;
/// "answers 0 or 1"
pub const MOST_ANSWER: u32 = 1;
/// "Statistics stop at -2,000,000 and 2,000,000."
pub const STATISTICS_STOP: i32 = 2_000_000;

/// "succ 0 to 1,000; fail 0 to 1,000; min -1,000,000 to 0; max 0 to 1,000,000."
pub const SUCC: RangeInclusive<i32> = 0..=1_000;
pub const FAIL: RangeInclusive<i32> = 0..=1_000;
pub const MIN: RangeInclusive<i32> = -1_000_000..=0;
pub const MAX: RangeInclusive<i32> = 0..=1_000_000;

/// "step count 0 or above 1,000" is refused.
pub const STEP_COUNT: RangeInclusive<u32> = 1..=1_000;
/// "Schedule file: at most 60,000 bytes."
pub const MOST_SCHEDULE_BYTES: usize = 60_000;
/// "Numbers: 1 to 7 digits".
pub const MOST_DIGITS: usize = 7;

/// Row 6 makes "left base, right base, route".
pub const PLACES_OF_A_SPLIT: usize = 3;
