//! The calls on a state: begin, one step, counted steps.

use super::onlooker::Onlooker;
use super::records::{Begin, Steps};
use super::refusals::{self, Refusal};
use super::rows::row;
use super::state::{Phase, State, FRESH_THREAD};

/// What an operation ends with.
#[derive(Clone, Copy, Debug, PartialEq, Eq)]
pub struct Ending {
    pub answer: u32,
    pub commit_number: u32,
}

/// What an accepted step says.
#[derive(Clone, Copy, Debug, PartialEq, Eq)]
pub enum Reply {
    GoesOn,
    Ended(Ending),
}

/// What accepted counted steps say: how many were taken, and the phase then or what
/// the operation ended with.
#[derive(Clone, Copy, Debug, PartialEq, Eq)]
pub enum Counted {
    Stopped { taken: u32, phase: Phase },
    Ended { taken: u32, ending: Ending },
}

impl State {
    /// "Begin: begun goes up by one, and the thread gets the operation, the key
    /// and phase 1."
    pub fn begin(&mut self, begin: Begin) -> Result<(), Refusal> {
        refusals::of_begin(self, begin)?;
        self.begun += 1;
        let th = &mut self.threads[begin.thread];
        th.operation = begin.operation;
        th.key = begin.key;
        th.phase = 1;
        Ok(())
    }

    /// One step of a thread: the row of its phase.
    pub fn step(&mut self, thread: usize) -> Result<Reply, Refusal> {
        refusals::of_step(self, thread)?;
        let then = row(self.threads[thread].phase)(self, thread);
        self.threads[thread].phase = then;
        if then == 0 {
            return Ok(Reply::Ended(self.end(thread)));
        }
        Ok(Reply::GoesOn)
    }

    /// "the operation ends, the thread is as fresh"
    fn end(&mut self, thread: usize) -> Ending {
        let ended = self.threads[thread];
        self.threads[thread] = FRESH_THREAD;
        Ending {
            answer: ended.answer,
            commit_number: ended.commit_number,
        }
    }

    /// Counted steps, with someone looking on.
    pub fn counted_steps<O: Onlooker>(
        &mut self,
        steps: Steps,
        onlooker: &mut O,
    ) -> Result<Counted, Refusal> {
        refusals::of_counted_steps(self, steps)?;
        // "If 8 comes inside a counted line, the state before the line stands."
        let before_the_line = self.clone();
        let counted = self.steps_until_ended(steps, onlooker);
        if counted.is_err() {
            *self = before_the_line;
        }
        counted
    }

    /// "Steps are taken until n have been taken or the operation ends; waits count."
    fn steps_until_ended<O: Onlooker>(
        &mut self,
        steps: Steps,
        onlooker: &mut O,
    ) -> Result<Counted, Refusal> {
        let Steps { thread, count } = steps;
        for taken in 1..=count {
            onlooker.before_step(self, thread);
            let reply = self.step(thread)?;
            onlooker.after_step(self, thread, reply);
            if let Reply::Ended(ending) = reply {
                return Ok(Counted::Ended { taken, ending });
            }
        }
        let phase = self.threads[thread].phase;
        Ok(Counted::Stopped {
            taken: count,
            phase,
        })
    }
}
