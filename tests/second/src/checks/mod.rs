//! Checks on the state after each accepted step of a run from fresh: each
//! operation answers as on a plain set; the reachable bases and the base
//! registers of threads in phases 20 to 23 hold the plain set, each key once;
//! the tree is in search order; a walk passes through at most 42 routes; a step
//! agrees with the table of followers; a wait changes nothing; the state is in
//! range; the locks are held by those who should; refusal 8 never comes.

mod locks;
mod order;
mod plain_set;
pub mod walks;

use crate::player::followers::{is_wait, FOLLOWERS};
use crate::player::onlooker::Onlooker;
use crate::player::refusals::{Refusal, STUCK};
use crate::player::state::{Phase, State};
use crate::player::step::Reply;
use plain_set::PlainSet;
use walks::{Walks, MOST_ROUTES_OF_A_WALK};

/// More of them would say no more.
const MOST_FAILURES: usize = 10;

pub struct Checker {
    pub steps: u64,
    pub walks: Walks,
    pub failures: Vec<String>,
    plain_set: PlainSet,
    before: Option<State>,
}

impl Checker {
    pub fn new() -> Checker {
        Checker {
            steps: 0,
            walks: Walks::new(),
            failures: Vec::new(),
            plain_set: PlainSet::new(),
            before: None,
        }
    }

    fn fail(&mut self, text: String) {
        if self.failures.len() < MOST_FAILURES {
            self.failures.push(format!("step {}: {}", self.steps, text));
        }
    }

    fn fail_if(&mut self, holds: bool, text: impl FnOnce() -> String) {
        if holds {
            self.fail(text());
        }
    }

    fn fail_with_each(&mut self, texts: Vec<String>) {
        for text in texts {
            self.fail(text);
        }
    }

    /// A step agrees with the table of followers.
    fn check_follower(&mut self, old_phase: Phase, new_phase: Phase) {
        let follows = FOLLOWERS[old_phase as usize].contains(&new_phase);
        self.fail_if(!follows, || {
            format!("phase {new_phase} after phase {old_phase}")
        });
    }

    /// A wait changes nothing.
    fn check_wait(&mut self, before: &State, state: &State, thread: usize) {
        let old_phase = before.threads[thread].phase;
        let waited = is_wait(old_phase, state.threads[thread].phase);
        self.fail_if(waited && state != before, || {
            format!("a wait at {old_phase} changed something")
        });
    }

    /// The commit count and, where an operation ends, its answer and commit number
    /// are the plain set's.
    fn check_plain_set(&mut self, before: &State, state: &State, thread: usize, reply: Reply) {
        self.plain_set.follow(before, thread);
        let (committed, commits) = (state.committed, self.plain_set.commits);
        self.fail_if(committed != commits, || {
            format!("{committed} committed, not {commits}")
        });
        if let Some(wrong) = self.plain_set.wrong_answer(thread, reply) {
            self.fail(wrong);
        }
    }

    fn check_walk(&mut self, state: &State, thread: usize, old_phase: Phase) {
        let passed = self.walks.after_step(state, thread, old_phase).unwrap_or(0);
        self.fail_if(passed > MOST_ROUTES_OF_A_WALK, || {
            format!("thread {thread}'s walk passed through {passed} routes")
        });
    }

    fn check_state(&mut self, state: &State) {
        let wrong = order::wrong_keys(state, &self.plain_set.keys);
        self.fail_with_each(wrong);
        self.fail_with_each(locks::wrong_locks(state));
        self.fail_if(!state.in_range(), || {
            "the state is not in range".to_string()
        });
    }
}

impl Onlooker for Checker {
    fn fresh(&mut self, state: &State) {
        self.plain_set = PlainSet::new();
        self.check_state(state);
    }

    fn before_step(&mut self, state: &State, _thread: usize) {
        self.before = Some(state.clone());
    }

    fn after_step(&mut self, state: &State, thread: usize, reply: Reply) {
        self.steps += 1;
        let before = self.before.take().unwrap();
        let old_phase = before.threads[thread].phase;
        self.check_follower(old_phase, state.threads[thread].phase);
        self.check_wait(&before, state, thread);
        self.check_plain_set(&before, state, thread, reply);
        self.check_walk(state, thread, old_phase);
        self.check_state(state);
    }

    /// The key list at the end is among what may be refused.
    fn refused(&mut self, number: Refusal) {
        self.fail_if(number == STUCK, || "refusal 8".to_string());
    }
}
