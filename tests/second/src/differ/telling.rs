//! Telling a difference.

use super::running::Outcome;
use crate::player::bytes::lines_of;
use crate::player::sheet::key_sheet;
use std::io;
use std::path::PathBuf;

const MOST_LINES_TOLD: usize = 200;
const MOST_BYTES_TOLD: usize = 300;

/// The first sheet line, from 0, in which the two differ; a missing line and a
/// missing final newline count as well.
pub fn first_difference(one: &[u8], other: &[u8]) -> usize {
    let same = one.iter().zip(other).take_while(|(a, b)| a == b);
    same.filter(|(&byte, _)| byte == b'\n').count()
}

/// The lines with their newlines.
pub fn pieces_of(bytes: &[u8]) -> Vec<&[u8]> {
    bytes.split_inclusive(|&c| c == b'\n').collect()
}

/// Tells where the sheets differ, and the small schedule, found in so many runs.
pub fn tell(seed: u64, schedule: &[u8], outcome: &Outcome, small: &[u8], runs: usize) {
    println!("seed {seed}: the sheets differ");
    if let Some(trouble) = &outcome.trouble {
        println!("  the program: {trouble}");
    }
    tell_first_difference(schedule, outcome);
    tell_small(small, runs);
    if let Ok([whole, small]) = kept(seed, schedule, small) {
        println!("kept: {}", whole.display());
        println!("kept: {}", small.display());
    }
}

fn tell_first_difference(schedule: &[u8], outcome: &Outcome) {
    let expected = key_sheet(schedule);
    if outcome.sheet != expected {
        let at = first_difference(&outcome.sheet, &expected);
        println!("  first at sheet line {}", at + 1);
        println!("  program: {}", sheet_line(&outcome.sheet, at));
        println!("  second:  {}", sheet_line(&expected, at));
        println!("  schedule line {}", schedule_line(schedule, &expected, at));
    }
}

fn tell_small(small: &[u8], runs: usize) {
    let lines = pieces_of(small);
    println!(
        "a small schedule that still differs ({} lines, {} bytes, found in {runs} runs):",
        lines.len(),
        small.len()
    );
    for line in lines.iter().take(MOST_LINES_TOLD) {
        println!("  {}", printable(line));
    }
    if lines.len() > MOST_LINES_TOLD {
        println!("  ... and so on");
    }
}

/// A line with its newline if it has one, in printable letters.
fn sheet_line(sheet: &[u8], number: usize) -> String {
    match pieces_of(sheet).get(number) {
        None => "(no such line)".to_string(),
        Some(piece) => match piece.strip_suffix(b"\n") {
            Some(line) => printable(line),
            None => format!("{} (without its newline)", printable(piece)),
        },
    }
}

fn printable(bytes: &[u8]) -> String {
    if bytes.len() > MOST_BYTES_TOLD {
        let start = bytes[..MOST_BYTES_TOLD].escape_ascii();
        return format!("{start}... ({} bytes)", bytes.len());
    }
    bytes.escape_ascii().to_string()
}

/// The schedule line that a sheet line, from 0, belongs to.
fn schedule_line(schedule: &[u8], expected: &[u8], at: usize) -> String {
    if expected == b"X\t12\n" {
        return format!("none: the schedule has {} bytes", schedule.len());
    }
    match lines_of(schedule).get(at) {
        Some(line) => format!("{}: {}", at + 1, printable(line)),
        None => "none: it is the line of the end".to_string(),
    }
}

/// Keeps the schedule and the small one beside the folder of the build, under the
/// repository's target folder.
fn kept(seed: u64, schedule: &[u8], small: &[u8]) -> io::Result<[PathBuf; 2]> {
    let mut folder = std::env::current_exe()?;
    folder.pop();
    folder.pop();
    folder.push("differences");
    std::fs::create_dir_all(&folder)?;
    let whole_file = folder.join(format!("seed-{seed}.schedule"));
    let small_file = folder.join(format!("seed-{seed}.small"));
    std::fs::write(&whole_file, schedule)?;
    std::fs::write(&small_file, small)?;
    Ok([whole_file, small_file])
}
