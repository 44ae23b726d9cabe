//! Writing lines, each of which is played at once.

use super::damage::{damage, odd_numbers};
use super::Maker;
use crate::player::onlooker::Nobody;
use crate::player::operations::LETTERS;
use crate::player::settings::Settings;
use crate::player::sheet::other_line;
use crate::player::state::State;

pub fn line_of_settings(s: Settings) -> Vec<u8> {
    format!("R\t{}\t{}\t{}\t{}", s.succ, s.fail, s.min, s.max).into_bytes()
}

impl Maker {
    pub fn first_line(&mut self, settings: Settings) {
        self.state = State::fresh(settings).expect("the maker's settings are good");
        self.write(&line_of_settings(settings));
    }

    fn write(&mut self, line: &[u8]) {
        self.out.extend_from_slice(line);
        self.out.push(b'\n');
    }

    /// Writes a line and plays it.
    pub fn line(&mut self, line: &[u8]) {
        self.write(line);
        other_line(&mut self.state, line, &mut Vec::new(), &mut Nobody);
        for left in self.left_for.iter_mut() {
            *left = left.saturating_sub(1);
        }
    }

    /// Writes a good line, and sometimes a damaged one before it.
    fn good_line(&mut self, line: &[u8]) {
        if self.damaged_one_in > 0 && self.random.one_in(self.damaged_one_in) {
            let bad = if self.random.one_in(5) {
                odd_numbers(&mut self.random)
            } else {
                damage(&mut self.random, line)
            };
            self.line(&bad);
        }
        self.line(line);
    }

    /// Writes a part in which no line is damaged: a damaged line could step a thread
    /// past where it is wanted.
    pub fn undamaged<T>(&mut self, part: impl FnOnce(&mut Maker) -> T) -> T {
        let damaged_one_in = std::mem::take(&mut self.damaged_one_in);
        let outcome = part(self);
        self.damaged_one_in = damaged_one_in;
        outcome
    }

    pub fn begin(&mut self, t: usize, operation: u32, key: usize) {
        let letter = LETTERS[operation as usize] as char;
        self.good_line(format!("B\t{t}\t{letter}\t{key}").as_bytes());
    }

    pub fn steps(&mut self, t: usize, count: usize) {
        self.good_line(format!("S\t{t}\t{count}").as_bytes());
    }

    pub fn some_steps(&mut self, t: usize, least: usize, most: usize) {
        let count = self.random.between(least, most);
        self.steps(t, count);
    }

    /// Whether the schedule may still grow.
    pub fn room(&self) -> bool {
        self.out.len() < self.budget
    }
}
