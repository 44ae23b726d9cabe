//! Random begins and steps, between scenes.

use super::Maker;
use crate::player::numbers::THREADS;
use crate::player::state::Phase;

impl Maker {
    fn random_begin(&mut self) {
        let key = self.any_key();
        let operation = self.any_operation();
        if self.random.one_in(25) {
            // On any thread, busy or not.
            let t = self.random.below(THREADS);
            self.begin(t, operation, key);
        } else if let Some(t) = self.idle_thread() {
            self.begin(t, operation, key);
        }
    }

    fn random_step(&mut self) {
        if self.random.one_in(40) {
            // On any thread, idle or not, left or not.
            let t = self.random.below(THREADS);
            self.some_steps(t, 1, 3);
        } else if let Some(t) = self.busy_thread() {
            self.random_steps_of(t);
            self.leave_sometimes(t);
        }
    }

    fn random_steps_of(&mut self, t: usize) {
        match self.random.below(100) {
            0..=44 => self.steps(t, 1),
            45..=64 => self.some_steps(t, 2, 4),
            65..=76 => self.some_steps(t, 5, 12),
            77 => {
                // More often than not this ends the operation; else it waits long.
                let most = if self.random.one_in(4) { 999 } else { 60 };
                self.some_steps(t, 13, most);
            }
            78..=91 => {
                self.finish(t);
            }
            _ => {
                let stop = self.random.between(4, 24) as Phase;
                self.step_to(t, 60, |phase| phase == stop);
            }
        }
    }

    /// A holder left alone makes others wait.
    fn leave_sometimes(&mut self, t: usize) {
        let leaves = match self.phase(t) {
            9..=24 => self.random.one_in(4),
            5..=8 => self.random.one_in(10),
            _ => false,
        };
        if leaves {
            self.leave(t);
        }
    }

    /// Random begins and steps for some lines.
    pub fn shuffle(&mut self, lines: usize) {
        for _ in 0..lines {
            if self.random.below(100) < 30 {
                self.random_begin();
            } else {
                self.random_step();
            }
        }
    }

    pub fn shuffle_some(&mut self, least: usize, most: usize) {
        let lines = self.random.between(least, most);
        self.shuffle(lines);
    }
}
