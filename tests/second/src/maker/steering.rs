//! Seeing the state, steering one thread or two, growing a tree.

use super::Maker;
use crate::player::followers::is_wait;
use crate::player::keys::count_keys;
use crate::player::numbers::THREADS;
use crate::player::operations::{INSERT, LOOKUP};
use crate::player::state::{Phase, Register, State};

/// Takes a step; true if it was a wait, after which the thread alone would wait
/// for ever.
fn waits(state: &mut State, t: usize) -> bool {
    let phase = state.threads[t].phase;
    state.step(t).expect("refusal 8 never comes");
    is_wait(phase, state.threads[t].phase)
}

// ---- seeing -------------------------------------------------------------

impl Maker {
    pub fn phase(&self, t: usize) -> Phase {
        self.state.threads[t].phase
    }

    /// The base that a search for the key reaches now, and its parent.
    pub fn base_of(&self, key: usize) -> (usize, Register) {
        let mut parent = None;
        let mut node = self.state.root;
        while self.state.is_route(node) {
            parent = Some(node);
            node = self.state.child_by_key(node, key);
        }
        (node, parent)
    }

    /// Whether the base of a key has keys enough to be split.
    pub fn splittable(&self, key: usize) -> bool {
        let (base, _) = self.base_of(key);
        count_keys(&self.state.nodes[base].keys) >= 2
    }
}

// ---- one thread ---------------------------------------------------------

impl Maker {
    /// Steps a thread until its phase is wanted, in one line or in several;
    /// writes nothing and says no if that does not come within the most.
    pub fn step_to(&mut self, t: usize, most: usize, wanted: impl Fn(Phase) -> bool) -> bool {
        if wanted(self.phase(t)) {
            return true;
        }
        let mut trial = self.state.clone();
        let mut count = 0;
        while count < most && trial.threads[t].phase != 0 {
            if waits(&mut trial, t) {
                break;
            }
            count += 1;
            if wanted(trial.threads[t].phase) {
                self.steps_in_lines(t, count, trial.threads[t].phase == 0);
                return true;
            }
        }
        false
    }

    /// So many steps, in one line or in several.
    fn steps_in_lines(&mut self, t: usize, count: usize, to_the_end: bool) {
        match self.random.below(6) {
            0 => {
                for _ in 0..count {
                    self.steps(t, 1);
                }
            }
            1 if count > 1 => {
                let first = self.random.between(1, count - 1);
                self.steps(t, first);
                self.steps(t, count - first);
            }
            // "until the operation ends": more may be asked for.
            2 if to_the_end => self.steps(t, 1000),
            _ => self.steps(t, count),
        }
    }

    /// Runs a thread to its end, if it gets there; if it only waits, it waits a
    /// few steps, and seldom many.
    pub fn finish(&mut self, t: usize) -> bool {
        if self.phase(t) == 0 {
            return true;
        }
        let asked = self.random.pick(&[1000, 1000, 999, 500, 200]);
        let exactly = self.random.one_in(2);
        if exactly && self.step_to(t, 200, |phase| phase == 0) {
            return self.phase(t) == 0;
        }
        if self.gets_to_its_end(t) || self.random.one_in(40) {
            self.steps(t, asked);
        } else {
            self.some_steps(t, 1, 30);
        }
        self.phase(t) == 0
    }

    fn gets_to_its_end(&self, t: usize) -> bool {
        let mut trial = self.state.clone();
        for _ in 0..200 {
            if trial.threads[t].phase == 0 || waits(&mut trial, t) {
                break;
            }
        }
        trial.threads[t].phase == 0
    }

    /// Runs every thread to its end, one after the other, also those left.
    pub fn finish_all(&mut self) {
        self.left_for = [0; THREADS];
        for t in 0..THREADS {
            self.finish(t);
        }
    }

    /// Leaves a thread as it stands while others go on.
    pub fn leave(&mut self, t: usize) {
        self.left_for[t] = match self.random.below(4) {
            0 => self.random.between(1, 5),
            1 => self.random.between(5, 25),
            2 => self.random.between(25, 100),
            _ => 1_000_000,
        };
    }

    pub fn wake_some(&mut self) {
        for t in 0..THREADS {
            if self.random.one_in(3) {
                self.left_for[t] = 0;
            }
        }
    }
}

// ---- splits and joins ---------------------------------------------------

impl Maker {
    /// Two threads meet on the base of a key: one holds it, the other waits and
    /// takes it with fail added. Gives the second if it then stands at phase 6.
    pub fn contended(&mut self, key: usize, operation: u32, second_key: usize) -> Option<usize> {
        let a = self.idle_thread()?;
        self.begin(a, LOOKUP, key);
        if !self.step_to(a, 60, |phase| phase == 5) {
            return None;
        }
        let b = self.idle_thread()?;
        self.begin(b, operation, second_key);
        if !self.step_to(b, 60, |phase| phase == 4) {
            return None;
        }
        if self.random.one_in(4) {
            self.some_steps(b, 1, 3);
        }
        if !self.finish(a) {
            return None;
        }
        if self.step_to(b, 60, |phase| phase == 6) {
            return Some(b);
        }
        self.finish(b);
        None
    }

    /// Splits the base of a key if contention does it. The splitting thread is
    /// run to its end, or sometimes left in the middle.
    pub fn split(&mut self, key: usize) -> bool {
        if self.idle_thread().is_none() {
            return false;
        }
        let Some(b) = self.contended(key, LOOKUP, key) else {
            return false;
        };
        if self.random.one_in(12) {
            let stop = self.random.between(6, 25) as Phase;
            self.step_to(b, 10, |phase| phase >= stop);
            self.leave(b);
        } else {
            self.finish(b);
        }
        true
    }

    /// Looks a key up, uncontended, until its base is to be joined: true if the
    /// thread stands at phase 9.
    pub fn to_a_join(&mut self, t: usize, key: usize) -> bool {
        for _ in 0..5 {
            if self.phase(t) != 0 {
                return false;
            }
            let operation = if self.random.one_in(8) {
                self.any_operation()
            } else {
                LOOKUP
            };
            self.begin(t, operation, key);
            if self.step_to(t, 60, |phase| phase == 9) {
                return true;
            }
            // With a succ of 0 no join will come.
            if !self.finish(t) || self.state.settings.succ == 0 {
                return false;
            }
        }
        false
    }

    /// An idle thread, brought to phase 9 for the base of a key.
    pub fn thread_at_a_join(&mut self, key: usize) -> Option<usize> {
        let t = self.idle_thread()?;
        self.to_a_join(t, key).then_some(t)
    }

    /// Steps a thread to some phase of its join, not before this one, and leaves it
    /// there.
    pub fn go_on_and_leave(&mut self, t: usize, first_stop: usize) {
        let stop = self.random.between(first_stop, 24) as Phase;
        self.step_to(t, 120, |phase| phase >= stop);
        self.leave(t);
    }

    /// Brings a thread into the middle of a join and leaves it there.
    pub fn join_and_leave(&mut self, key: usize) {
        if let Some(t) = self.thread_at_a_join(key) {
            self.go_on_and_leave(t, 9);
        }
    }

    /// Joins the base of a key to the end, if nothing is in the way.
    pub fn join(&mut self, key: usize) -> bool {
        let Some(t) = self.thread_at_a_join(key) else {
            return false;
        };
        let made = self.state.made;
        self.finish(t);
        self.state.made > made
    }
}

// ---- growing a tree -----------------------------------------------------

impl Maker {
    pub fn insert(&mut self, key: usize) {
        if let Some(t) = self.idle_thread() {
            self.begin(t, INSERT, key);
            self.finish(t);
        }
    }

    /// Inserts keys of the pool one after the other.
    pub fn fill(&mut self, most: usize) {
        let mut keys = self.key_pool.clone();
        keys.truncate(most);
        for key in keys {
            self.insert(key);
        }
    }

    /// Grows a tree: fills, then splits bases with keys to split.
    pub fn grow(&mut self, splits: usize) {
        self.fill(self.key_pool.len());
        let mut done = 0;
        for _ in 0..3 * splits {
            if done == splits {
                break;
            }
            let key = self.any_key();
            if self.splittable(key) && self.split(key) {
                done += 1;
            }
        }
    }
}
