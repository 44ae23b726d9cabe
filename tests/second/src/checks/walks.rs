//! Counts the routes that each thread's walk passes through, for the checks and
//! for the counts.

use crate::player::numbers::THREADS;
use crate::player::state::{Phase, State};

pub const MOST_ROUTES_OF_A_WALK: usize = 42;

pub struct Walks {
    routes_passed: [usize; THREADS],
    pub most_routes: usize,
}

impl Walks {
    pub fn new() -> Walks {
        Walks {
            routes_passed: [0; THREADS],
            most_routes: 0,
        }
    }

    /// To be told of each step, with the phase before it. Gives how many routes the
    /// walk has passed so far if the step set it.
    pub fn after_step(&mut self, state: &State, thread: usize, old_phase: Phase) -> Option<usize> {
        let th = &state.threads[thread];
        if starts_a_walk(old_phase) {
            self.routes_passed[thread] = 0;
        }
        if !sets_walk(old_phase, th.phase) {
            return None;
        }
        if th.walk.is_some_and(|walk| state.is_route(walk)) {
            self.routes_passed[thread] += 1;
        }
        let passed = self.routes_passed[thread];
        self.most_routes = self.most_routes.max(passed);
        Some(passed)
    }
}

/// "A walk runs from a step at phase 1, 9, 15 or 21".
fn starts_a_walk(phase: Phase) -> bool {
    matches!(phase, 1 | 9 | 15 | 21)
}

/// The steps of a walk set the walk register, but for the one at 22 that goes on
/// to 23.
fn sets_walk(old_phase: Phase, new_phase: Phase) -> bool {
    matches!(old_phase, 1 | 2 | 9 | 10 | 15 | 16 | 21 | 22) && (old_phase, new_phase) != (22, 23)
}
