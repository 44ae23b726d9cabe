//! "Refusal numbers", and the order in which each call tests them. A call changes
//! nothing when it is refused. 7 and 9 cannot come here: a state reached from fresh
//! is in range, which the checks test after each step, and no room is lent.

use super::numbers::{KEYS, MOST_BEGUN, MOST_SCHEDULE_BYTES, STEP_COUNT, THREADS};
use super::operations::OPERATIONS;
use super::records::{Begin, Steps};
use super::settings::Settings;
use super::state::State;

pub type Refusal = u32;

/// "a line, or an operation number, is not of the forms below"
pub const NO_FORM: Refusal = 1;
/// "the first line is missing or not a settings line in range, or a fresh state is
/// asked for with settings out of range"
pub const NO_SETTINGS: Refusal = 2;
/// "thread above 7"
pub const THREAD: Refusal = 3;
/// "key above 63"
pub const KEY: Refusal = 4;
/// "begin on a thread not in phase 0"
pub const BUSY: Refusal = 5;
/// "step on a thread in phase 0"
pub const IDLE: Refusal = 6;
/// "a step or key list is stuck"
pub const STUCK: Refusal = 8;
/// "step count 0 or above 1,000"
pub const COUNT: Refusal = 10;
/// "begin when 1,000,000 are begun"
pub const ALL_BEGUN: Refusal = 11;
/// "schedule over 60,000 bytes"
pub const TOO_LONG: Refusal = 12;

pub fn refuse(holds: bool, refusal: Refusal) -> Result<(), Refusal> {
    if holds {
        return Err(refusal);
    }
    Ok(())
}

/// A fresh state is asked for: 2.
pub fn of_settings(settings: Settings) -> Result<(), Refusal> {
    refuse(!settings.in_range(), NO_SETTINGS)
}

/// "begin 7, 1, 3, 4, 5, 11"
pub fn of_begin(state: &State, begin: Begin) -> Result<(), Refusal> {
    let Begin {
        thread,
        operation,
        key,
    } = begin;
    refuse(operation >= OPERATIONS, NO_FORM)?;
    refuse(thread >= THREADS, THREAD)?;
    refuse(key >= KEYS, KEY)?;
    refuse(state.threads[thread].phase != 0, BUSY)?;
    refuse(state.begun == MOST_BEGUN, ALL_BEGUN)
}

/// "step 7, 3, 6, 8"
pub fn of_step(state: &State, thread: usize) -> Result<(), Refusal> {
    refuse(thread >= THREADS, THREAD)?;
    refuse(state.threads[thread].phase == 0, IDLE)?;
    refuse(state.stuck(thread), STUCK)
}

/// "other line 9, 7, 1, then 3, 4, 10, 5, 6, 11, 8 as they apply": before the first
/// step of a counted line 3, 10, 6.
pub fn of_counted_steps(state: &State, steps: Steps) -> Result<(), Refusal> {
    let Steps { thread, count } = steps;
    refuse(thread >= THREADS, THREAD)?;
    refuse(!STEP_COUNT.contains(&count), COUNT)?;
    refuse(state.threads[thread].phase == 0, IDLE)
}

/// A whole file: 12 before all others.
pub fn of_schedule(schedule: &[u8]) -> Result<(), Refusal> {
    refuse(schedule.len() > MOST_SCHEDULE_BYTES, TOO_LONG)
}
