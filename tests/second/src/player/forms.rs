//! The forms of schedule lines: what a line says, or that it is of no form. No
//! number is looked at further here than its form asks.

use super::bytes::{fields_of, number_of, number_of_min};
use super::operations::operation_of;
use super::records::{Begin, Line, Steps};
use super::refusals::{Refusal, NO_FORM};
use super::settings::Settings;

/// "R succ fail min max: first line only."
pub fn settings_of(line: &[u8]) -> Option<Settings> {
    let [b"R", succ, fail, min, max] = fields_of(line)[..] else {
        return None;
    };
    Some(Settings {
        succ: number_of(succ)?,
        fail: number_of(fail)?,
        min: number_of_min(min)?,
        max: number_of(max)?,
    })
}

/// A line after the first, or 1. A settings line is of no form here.
pub fn line_of(line: &[u8]) -> Result<Line, Refusal> {
    let line = match fields_of(line)[..] {
        [b"B", thread, operation, key] => begin_of(thread, operation, key),
        [b"S", thread, count] => steps_of(thread, count),
        _ => None,
    };
    line.ok_or(NO_FORM)
}

/// "B thread op key, op I, D or L."
fn begin_of(thread: &[u8], operation: &[u8], key: &[u8]) -> Option<Line> {
    Some(Line::Begin(Begin {
        thread: number_of(thread)? as usize,
        operation: operation_of(operation)?,
        key: number_of(key)? as usize,
    }))
}

/// "S thread n."
fn steps_of(thread: &[u8], count: &[u8]) -> Option<Line> {
    Some(Line::Steps(Steps {
        thread: number_of(thread)? as usize,
        count: number_of(count)? as u32,
    }))
}
