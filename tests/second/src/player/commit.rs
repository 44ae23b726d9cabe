//! "Commit" and "Decide", which row 5 does in one step.

use super::keys::count_keys;
use super::operations::answer;
use super::state::{Phase, State};

impl State {
    /// The operation on the keys of its base, with the next commit number.
    pub fn commit(&mut self, t: usize, b: usize) {
        let commit_number = self.next_commit_number();
        let th = &mut self.threads[t];
        th.commit_number = commit_number;
        th.answer = answer(th.operation, th.key, &mut self.nodes[b].keys);
    }

    /// "the committed count goes up by one and is the commit number"
    fn next_commit_number(&mut self) -> u32 {
        self.committed += 1;
        self.committed
    }

    /// "Decide: statistics > max: fewer than 2 keys after the operation gives
    /// statistics 0 and phase 25, else 6. Otherwise statistics < min: P none gives
    /// statistics 0 and 25, else 9. Otherwise 25."
    pub fn decide(&mut self, t: usize, b: usize) -> Phase {
        if self.above_max(b) {
            if count_keys(&self.nodes[b].keys) < 2 {
                return self.statistics_0_then_25(b);
            }
            6
        } else if self.below_min(b) {
            if self.threads[t].prev.is_none() {
                return self.statistics_0_then_25(b);
            }
            9
        } else {
            25
        }
    }

    pub fn above_max(&self, b: usize) -> bool {
        self.nodes[b].statistics > self.settings.max
    }

    /// "Otherwise statistics < min".
    pub fn below_min(&self, b: usize) -> bool {
        !self.above_max(b) && self.nodes[b].statistics < self.settings.min
    }

    /// "B's statistics 0", and 25 in the column "Then": no split and no join.
    pub fn statistics_0_then_25(&mut self, b: usize) -> Phase {
        self.nodes[b].statistics = 0;
        25
    }
}
