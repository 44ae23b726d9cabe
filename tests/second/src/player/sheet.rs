//! "Schedule and key sheet": the line calls and the whole file.

use super::bytes::{lines_of, write_line};
use super::forms::{line_of, settings_of};
use super::keys::{rising, Keys};
use super::onlooker::{Nobody, Onlooker};
use super::records::Line;
use super::refusals::{self, Refusal, NO_SETTINGS};
use super::state::State;
use super::step::Counted;

/// Plays a schedule from fresh and gives its key sheet.
pub fn key_sheet(schedule: &[u8]) -> Vec<u8> {
    key_sheet_watched(schedule, &mut Nobody)
}

pub fn key_sheet_watched<O: Onlooker>(schedule: &[u8], onlooker: &mut O) -> Vec<u8> {
    let mut sheet = Vec::new();
    if let Err(refusal) = whole_file(schedule, &mut sheet, onlooker) {
        refused(refusal, &mut sheet, onlooker);
    }
    sheet
}

/// A refusal ends the sheet: "A file too long gives X 12 alone, whatever its first
/// line"; of a first line "If refused, the sheet is X 2 alone."
fn whole_file<O: Onlooker>(
    schedule: &[u8],
    sheet: &mut Vec<u8>,
    onlooker: &mut O,
) -> Result<(), Refusal> {
    refusals::of_schedule(schedule)?;
    let lines = lines_of(schedule);
    let (first, others) = lines.split_first().ok_or(NO_SETTINGS)?;
    let mut state = settings_line(first, sheet)?;
    onlooker.fresh(&state);
    for line in others {
        other_line(&mut state, line, sheet, onlooker);
    }
    onlooker.at_end(&state);
    end_line(&state, sheet)
}

/// "R succ fail min max: first line only. Sheet line R."
fn settings_line(line: &[u8], sheet: &mut Vec<u8>) -> Result<State, Refusal> {
    let settings = settings_of(line).ok_or(NO_SETTINGS)?;
    let state = State::fresh(settings)?;
    write_line(sheet, "R", &[]);
    Ok(state)
}

/// A line after the first: one sheet line, refused or accepted.
pub fn other_line<O: Onlooker>(
    state: &mut State,
    line: &[u8],
    sheet: &mut Vec<u8>,
    onlooker: &mut O,
) {
    if let Err(refusal) = accepted_line(state, line, sheet, onlooker) {
        refused(refusal, sheet, onlooker);
    }
}

fn accepted_line<O: Onlooker>(
    state: &mut State,
    line: &[u8],
    sheet: &mut Vec<u8>,
    onlooker: &mut O,
) -> Result<(), Refusal> {
    match line_of(line)? {
        Line::Begin(begin) => {
            state.begin(begin)?;
            write_begun(begin.thread, sheet);
        }
        Line::Steps(steps) => {
            let counted = state.counted_steps(steps, onlooker)?;
            write_counted(steps.thread, counted, sheet);
        }
    }
    Ok(())
}

/// "Sheet: B thread."
fn write_begun(thread: usize, sheet: &mut Vec<u8>) {
    write_line(sheet, "B", &[thread as u32]);
}

/// "Sheet: S thread taken phase, or on ending D thread taken answer commit."
fn write_counted(thread: usize, counted: Counted, sheet: &mut Vec<u8>) {
    let thread = thread as u32;
    match counted {
        Counted::Stopped { taken, phase } => write_line(sheet, "S", &[thread, taken, phase]),
        Counted::Ended { taken, ending } => {
            let numbers = [thread, taken, ending.answer, ending.commit_number];
            write_line(sheet, "D", &numbers)
        }
    }
}

/// "the sheet line is X, tab, number"
fn refused<O: Onlooker>(refusal: Refusal, sheet: &mut Vec<u8>, onlooker: &mut O) {
    onlooker.refused(refusal);
    write_line(sheet, "X", &[refusal]);
}

/// "At the end the sheet has E committed made keys".
fn end_line(state: &State, sheet: &mut Vec<u8>) -> Result<(), Refusal> {
    let keys = list_of(&state.key_list()?);
    let line = format!("E\t{}\t{}\t{keys}\n", state.committed, state.made);
    sheet.extend_from_slice(line.as_bytes());
    Ok(())
}

/// "rising, each once, parted by commas, - if none"
fn list_of(keys: &Keys) -> String {
    let texts: Vec<String> = rising(keys).map(|key| key.to_string()).collect();
    if texts.is_empty() {
        return "-".to_string();
    }
    texts.join(",")
}
