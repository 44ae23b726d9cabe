//! The branches of the rows, and which of them a step took.

use super::Counts;
use crate::player::state::{Side, State, Thread};

/// In the order of the table.
pub const BRANCHES: [&str; 42] = [
    "3: B held",
    "4: waits",
    "5: retry, B invalid",
    "5: P none below min",
    "5: fewer than 2 keys above max",
    "5: statistics exactly max, max > 0",
    "5: statistics exactly min, min < 0",
    "6: fewer than 3 places",
    "6: exactly 3 places",
    "7: as root",
    "7: under P",
    "10: more than once",
    "11: failed try",
    "12: N invalid",
    "12: no place",
    "12: the last place",
    "13: waits",
    "15: root is P",
    "16: more than once",
    "17: waits",
    "18: G invalid",
    "19: as root",
    "19: under G, side left",
    "19: under G, side right",
    "21: far child N, G none",
    "21: far child N, G not none",
    "21: far child not N, G none",
    "21: far child not N, G not none",
    "21: far child not that of 9",
    "22: more than once",
    "23: as root",
    "two threads in 13 to 23",
    "three threads in 13 to 23",
    "20 steps of others while in 13 to 23",
    "100 steps of others while in 13 to 23",
    "42 routes in a walk",
    "20 or more routes in a walk",
    "end in phases 20 to 23",
    "end with 126 to 128 made",
    "end with no keys reachable",
    "60,000 bytes exactly, played",
    "no final newline, played",
];

impl Counts {
    /// Marks the branches that a step took at its row.
    pub(super) fn count_branches(&mut self, state: &State, thread: usize) {
        let now = state.threads[thread];
        match self.before.thread.phase {
            3..=5 => self.count_search(state, &now),
            6 | 7 => self.count_split(&now),
            9..=13 => self.count_try_for_n(thread, &now),
            15..=19 => self.count_splice(thread, &now),
            21..=23 => self.count_link(state, thread),
            _ => {}
        }
    }

    fn count_search(&mut self, state: &State, now: &Thread) {
        let (min, max) = (state.settings.min, state.settings.max);
        let statistics = self.before.base_statistics;
        match self.before.thread.phase {
            3 => self.mark_if(now.phase == 4, "3: B held"),
            4 => self.mark_if(now.phase == 4, "4: waits"),
            _ if !self.before.base_valid => self.mark_if(true, "5: retry, B invalid"),
            _ if now.phase == 25 => {
                self.mark_if(statistics < min, "5: P none below min");
                self.mark_if(statistics > max, "5: fewer than 2 keys above max");
                let exactly_max = statistics == max && max > 0;
                self.mark_if(exactly_max, "5: statistics exactly max, max > 0");
                let exactly_min = statistics == min && min < 0;
                self.mark_if(exactly_min, "5: statistics exactly min, min < 0");
            }
            _ => {}
        }
    }

    fn count_split(&mut self, now: &Thread) {
        let old = self.before.thread;
        if old.phase == 6 {
            self.mark_if(now.phase == 25, "6: fewer than 3 places");
            self.mark_if(self.before.places == 3, "6: exactly 3 places");
        } else {
            self.mark_if(old.prev.is_none(), "7: as root");
            self.mark_if(old.prev.is_some(), "7: under P");
        }
    }

    fn count_try_for_n(&mut self, thread: usize, now: &Thread) {
        let (n_valid, places) = (self.before.neighbour_valid, self.before.places);
        match self.before.thread.phase {
            9 => {
                self.steps_of_walk[thread] = 0;
                self.far_child_at_9[thread] = now.walk;
            }
            10 => self.count_again(thread, "10: more than once"),
            11 => self.mark_if(!self.before.walk_free, "11: failed try"),
            12 => {
                self.mark_if(!n_valid, "12: N invalid");
                self.mark_if(n_valid && places == 0, "12: no place");
                self.mark_if(n_valid && places == 1, "12: the last place");
            }
            _ => self.mark_if(now.phase == 13, "13: waits"),
        }
    }

    fn count_splice(&mut self, thread: usize, now: &Thread) {
        let old = self.before.thread;
        match old.phase {
            15 => {
                self.steps_of_walk[thread] = 0;
                self.mark_if(now.phase == 19, "15: root is P");
            }
            16 => self.count_again(thread, "16: more than once"),
            17 => self.mark_if(now.phase == 17, "17: waits"),
            18 => self.mark_if(now.phase == 15, "18: G invalid"),
            _ => {
                let under_g = old.grandparent.is_some();
                let left = old.side == Side::Left;
                self.mark_if(!under_g, "19: as root");
                self.mark_if(under_g && left, "19: under G, side left");
                self.mark_if(under_g && !left, "19: under G, side right");
            }
        }
    }

    fn count_link(&mut self, state: &State, thread: usize) {
        let old = self.before.thread;
        match old.phase {
            21 => {
                self.steps_of_walk[thread] = 0;
                let far = Some(state.child_on(old.prev.unwrap(), old.side));
                let far_is_n = far == old.neighbour;
                let g_none = old.grandparent.is_none();
                self.mark_if(far_is_n && g_none, "21: far child N, G none");
                self.mark_if(far_is_n && !g_none, "21: far child N, G not none");
                self.mark_if(!far_is_n && g_none, "21: far child not N, G none");
                self.mark_if(!far_is_n && !g_none, "21: far child not N, G not none");
                let changed = self.far_child_at_9[thread] != far;
                self.mark_if(changed, "21: far child not that of 9");
            }
            22 => self.count_again(thread, "22: more than once"),
            _ => self.mark_if(old.walk.is_none(), "23: as root"),
        }
    }

    /// A further step of a walk: the second one is marked.
    fn count_again(&mut self, thread: usize, name: &str) {
        self.steps_of_walk[thread] += 1;
        self.mark_if(self.steps_of_walk[thread] == 2, name);
    }
}
