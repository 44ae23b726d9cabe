//! Making a schedule small that still shows a difference.

use super::running::{Outcome, Place};
use super::telling::{first_difference, pieces_of};
use crate::player::sheet::key_sheet;
use std::time::{Duration, Instant};

/// Lines longer than this are made shorter too.
const LONG_LINE: usize = 40;

pub struct Shrinker<'a> {
    program: &'a [String],
    place: &'a Place,
    pub runs: usize,
    until: Instant,
}

impl<'a> Shrinker<'a> {
    pub fn new(program: &'a [String], place: &'a Place, seconds: u64) -> Shrinker<'a> {
        Shrinker {
            program,
            place,
            runs: 0,
            until: Instant::now() + Duration::from_secs(seconds),
        }
    }

    pub fn small(&mut self, schedule: &[u8], outcome: &Outcome) -> Vec<u8> {
        let start = self.start_of(schedule, outcome);
        // Drop lines greedily, many at a time first.
        let mut lines = pieces_of(&start);
        self.drop_parts(&mut lines, |parts| parts.concat());
        self.shorter_lines(lines.iter().map(|line| line.to_vec()).collect())
    }

    fn time_is_up(&self) -> bool {
        Instant::now() > self.until
    }

    fn differs(&mut self, schedule: &[u8]) -> bool {
        if self.time_is_up() {
            return false;
        }
        self.runs += 1;
        let outcome = self.place.run(self.program, schedule);
        !outcome.agrees(&key_sheet(schedule))
    }

    /// Nothing after the line of the first difference is needed, mostly.
    fn start_of(&mut self, schedule: &[u8], outcome: &Outcome) -> Vec<u8> {
        let at = first_difference(&outcome.sheet, &key_sheet(schedule));
        let pieces = pieces_of(schedule);
        if at + 1 < pieces.len() {
            let start = pieces[..at + 1].concat();
            if self.differs(&start) {
                return start;
            }
        }
        schedule.to_vec()
    }

    /// Drops bytes of the lines that are still long.
    fn shorter_lines(&mut self, mut lines: Vec<Vec<u8>>) -> Vec<u8> {
        for i in 0..lines.len() {
            if lines[i].len() > LONG_LINE {
                let mut bytes = lines[i].clone();
                let before = lines[..i].concat();
                let after = lines[i + 1..].concat();
                self.drop_parts(&mut bytes, |parts| [&before, parts, &after].concat());
                lines[i] = bytes;
            }
        }
        lines.concat()
    }

    fn drop_parts<T: Clone>(&mut self, parts: &mut Vec<T>, whole: impl Fn(&[T]) -> Vec<u8>) {
        let mut size = (parts.len() / 2).max(1);
        loop {
            let dropped = self.drop_parts_of_size(size, parts, &whole);
            if self.time_is_up() || (size == 1 && !dropped) {
                return;
            }
            size = (size / 2).max(1);
        }
    }

    /// Goes over the parts once, and says whether any were dropped.
    fn drop_parts_of_size<T: Clone>(
        &mut self,
        size: usize,
        parts: &mut Vec<T>,
        whole: impl Fn(&[T]) -> Vec<u8>,
    ) -> bool {
        let mut dropped = false;
        // From the back, where less depends on a line.
        let mut end = parts.len();
        while end > 0 {
            let start = end.saturating_sub(size);
            let fewer = [&parts[..start], &parts[end..]].concat();
            if self.differs(&whole(&fewer)) {
                *parts = fewer;
                dropped = true;
            }
            end = start;
        }
        dropped
    }
}
