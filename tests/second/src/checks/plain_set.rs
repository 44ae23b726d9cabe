//! The plain set: each operation done on it at its commit. It does not share the
//! program's own way of doing that, so that a fault there is seen.

use crate::player::keys::{Keys, NO_KEYS};
use crate::player::numbers::THREADS;
use crate::player::operations::{DELETE, INSERT};
use crate::player::state::State;
use crate::player::step::{Ending, Reply};

pub struct PlainSet {
    pub keys: Keys,
    pub commits: u32,
    /// What each thread's operation should end with, once it has committed.
    expected: [Option<Ending>; THREADS],
}

impl PlainSet {
    pub fn new() -> PlainSet {
        PlainSet {
            keys: NO_KEYS,
            commits: 0,
            expected: [None; THREADS],
        }
    }

    /// A step at phase 5 with a valid base commits.
    pub fn follow(&mut self, before: &State, thread: usize) {
        let th = &before.threads[thread];
        if th.phase == 5 && before.nodes[th.base.unwrap()].valid {
            self.commit(thread, th.operation, th.key);
        }
    }

    fn commit(&mut self, thread: usize, operation: u32, key: usize) {
        let present = self.keys[key];
        let answer = if operation == INSERT {
            !present
        } else {
            present
        };
        self.keys[key] = operation == INSERT || (present && operation != DELETE);
        self.commits += 1;
        self.expected[thread] = Some(Ending {
            answer: answer as u32,
            commit_number: self.commits,
        });
    }

    pub fn wrong_answer(&mut self, thread: usize, reply: Reply) -> Option<String> {
        let Reply::Ended(ending) = reply else {
            return None;
        };
        let expected = self.expected[thread].take();
        (expected != Some(ending)).then(|| {
            format!("thread {thread} ended with {ending:?}; the plain set says {expected:?}")
        })
    }
}
