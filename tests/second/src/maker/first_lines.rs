//! Schedules that are not played in full: raw bytes, bad or missing first lines.

use super::choosing::any_settings;
use super::damage::damage;
use super::writing::line_of_settings;
use crate::random::Random;

/// Raw random bytes, or bytes out of those that schedules are made of, with or
/// without a good first line.
pub fn raw_bytes(random: &mut Random) -> Vec<u8> {
    let mut out = Vec::new();
    if random.one_in(2) {
        out.extend_from_slice(b"R\t1\t250\t-1000\t1000\n");
    }
    let length = random.below(400);
    let any_byte = random.one_in(2);
    for _ in 0..length {
        if any_byte {
            out.push(random.below(256) as u8);
        } else {
            out.push(random.pick(b"RBSDIL0123456789\t\t\t\t\n\n\n -"));
        }
    }
    out
}

/// Bad first lines, each with what else stands in it.
const BAD_FIRST_LINES: [&[u8]; 18] = [
    b"",
    b"\n",
    b"\nR\t1\t250\t-1000\t1000\n",
    b"B\t0\tI\t5\n",
    b"R\t1001\t250\t-1000\t1000\n",
    b"R\t1\t1001\t-1000\t1000\n",
    b"R\t1\t250\t-1000001\t1000\n",
    b"R\t1\t250\t-1000\t1000001\n",
    b"R\t1\t250\t1\t1000\n",
    b"R\t1\t250\t-0\t1000\n",
    b"R\t-1\t250\t-1000\t1000\n",
    b"R\t1\t250\t-1000\t-1\n",
    b"R\t1\t250\t-10000000\t1000\n",
    b"R\t1\t250\t--1\t1000\n",
    b"R\t1\t250\t-\t1000\n",
    b"R\t1\t250\t-01\t1000\n",
    b"R 1 250 -1000 1000\n",
    b"R\t1\t250\t-9999999\t9999999\n",
];

/// One of those, or a damaged good one, and some lines behind it; or nothing.
pub fn bad_first_line(random: &mut Random) -> Vec<u8> {
    let good = line_of_settings(any_settings(random));
    let which = random.below(24);
    let mut out = match BAD_FIRST_LINES.get(which) {
        Some(line) if line.is_empty() => return Vec::new(),
        Some(line) => line.to_vec(),
        // It may have stayed good; then the schedule is played in full.
        None => [&damage(random, &good), b"\n" as &[u8]].concat(),
    };
    for _ in 0..random.below(6) {
        let line: &[u8] = random.pick(&[
            b"B\t0\tI\t5\n" as &[u8],
            b"S\t0\t1000\n",
            b"R\t1\t250\t-1000\t1000\n",
            b"\n",
            b"S\t0\t1\n",
        ]);
        out.extend_from_slice(line);
    }
    if random.one_in(3) {
        out.pop();
    }
    out
}
