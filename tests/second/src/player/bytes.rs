//! Bytes of schedules and sheets: lines, fields, numbers.

use super::numbers::MOST_DIGITS;

// ---- reading ------------------------------------------------------------

/// "Lines end with one newline byte; the last may lack it, with the same
/// result." A final newline starts no further line.
pub fn lines_of(schedule: &[u8]) -> Vec<&[u8]> {
    let mut lines = parts_of(schedule, b'\n');
    // Behind a final newline stands nothing, and so it does in an empty file.
    if lines.last().is_some_and(|last| last.is_empty()) {
        lines.pop();
    }
    lines
}

/// "Fields are parted by one tab." There is always at least one field, which
/// may be empty.
pub fn fields_of(line: &[u8]) -> Vec<&[u8]> {
    parts_of(line, b'\t')
}

fn parts_of(bytes: &[u8], parted_by: u8) -> Vec<&[u8]> {
    bytes.split(|&byte| byte == parted_by).collect()
}

/// "Numbers: 1 to 7 digits, no leading zero but 0 itself".
pub fn number_of(field: &[u8]) -> Option<i32> {
    if field.is_empty() || field.len() > MOST_DIGITS {
        return None;
    }
    if field[0] == b'0' && field.len() > 1 {
        return None;
    }
    let mut value = 0;
    for &byte in field {
        if !byte.is_ascii_digit() {
            return None;
        }
        value = value * 10 + (byte - b'0') as i32;
    }
    Some(value)
}

/// "min may have a minus before a number that isn't 0."
pub fn number_of_min(field: &[u8]) -> Option<i32> {
    match field.strip_prefix(b"-") {
        None => number_of(field),
        Some(digits) => number_of(digits)
            .filter(|&value| value != 0)
            .map(|value| -value),
    }
}

// ---- writing ------------------------------------------------------------

/// A sheet line: a letter, then numbers, parted by tabs.
pub fn write_line(sheet: &mut Vec<u8>, letter: &str, numbers: &[u32]) {
    sheet.extend_from_slice(letter.as_bytes());
    for &n in numbers {
        sheet.push(b'\t');
        write_number(sheet, n);
    }
    sheet.push(b'\n');
}

fn write_number(sheet: &mut Vec<u8>, n: u32) {
    if n >= 10 {
        write_number(sheet, n / 10);
    }
    sheet.push(b'0' + (n % 10) as u8);
}
