//! "The two lock rules", and tries on the other locks.

use super::numbers::STATISTICS_STOP;
use super::state::State;

impl State {
    /// "Taking at phase 3 subtracts succ from the base's statistics".
    pub fn try_at_3(&mut self, base: usize, t: usize) -> bool {
        let taken = self.try_lock(base, t);
        if taken {
            self.add_to_statistics(base, -self.settings.succ);
        }
        taken
    }

    /// "taking at phase 4 adds fail."
    pub fn try_at_4(&mut self, base: usize, t: usize) -> bool {
        let taken = self.try_lock(base, t);
        if taken {
            self.add_to_statistics(base, self.settings.fail);
        }
        taken
    }

    /// Takes the lock if it is free. "A try on a neighbour, and route locks, change
    /// no statistics."
    pub fn try_lock(&mut self, node: usize, t: usize) -> bool {
        let free = self.nodes[node].holder.is_none();
        if free {
            self.nodes[node].holder = Some(t);
        }
        free
    }

    /// "Releasing sets the holder to none."
    pub fn release(&mut self, node: usize) {
        self.nodes[node].holder = None;
    }

    /// "Statistics stop at -2,000,000 and 2,000,000."
    fn add_to_statistics(&mut self, base: usize, by: i32) {
        let sum = self.nodes[base].statistics + by;
        self.nodes[base].statistics = sum.clamp(-STATISTICS_STOP, STATISTICS_STOP);
    }
}
