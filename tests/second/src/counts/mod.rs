//! Counts what the maker's schedules reach: phases, branches, refusals.

mod branches;
mod table;

use crate::checks::walks::{Walks, MOST_ROUTES_OF_A_WALK};
use crate::player::keys::count_keys;
use crate::player::numbers::{MOST_SCHEDULE_BYTES, THREADS};
use crate::player::onlooker::Onlooker;
use crate::player::refusals::Refusal;
use crate::player::sheet::key_sheet_watched;
use crate::player::state::{Phase, Register, State, Thread, FRESH_THREAD};
use crate::player::step::Reply;
use std::io::{self, Write};
use table::Table;

pub struct Counts {
    table: Table,
    walks: Walks,
    before: Glimpse,
    /// Steps at 10, 16 or 22 in each thread's walk.
    steps_of_walk: [usize; THREADS],
    far_child_at_9: [Register; THREADS],
    others_steps_in_join: [u64; THREADS],
    steps: u64,
    bytes: u64,
}

/// What a thread was like before its step.
#[derive(Clone, Copy)]
struct Glimpse {
    thread: Thread,
    base_valid: bool,
    base_statistics: i32,
    places: usize,
    neighbour_valid: bool,
    walk_free: bool,
}

/// Phases in which a thread has a part in a join that others can meet.
fn in_join(phase: Phase) -> bool {
    matches!(phase, 13..=23)
}

impl Counts {
    pub fn new() -> Counts {
        Counts {
            table: Table::new(),
            walks: Walks::new(),
            before: Glimpse {
                thread: FRESH_THREAD,
                base_valid: false,
                base_statistics: 0,
                places: 0,
                neighbour_valid: false,
                walk_free: false,
            },
            steps_of_walk: [0; THREADS],
            far_child_at_9: [None; THREADS],
            others_steps_in_join: [0; THREADS],
            steps: 0,
            bytes: 0,
        }
    }

    pub fn play(&mut self, schedule: &[u8]) {
        self.others_steps_in_join = [0; THREADS];
        let sheet = key_sheet_watched(schedule, self);
        let in_full = sheet.starts_with(b"R");
        let limit = schedule.len() == MOST_SCHEDULE_BYTES;
        self.mark_if(in_full && limit, "60,000 bytes exactly, played");
        let no_newline = schedule.last() != Some(&b'\n');
        self.mark_if(in_full && no_newline, "no final newline, played");
        self.table.end_of_schedule();
        self.bytes += schedule.len() as u64;
    }

    /// Writes the table of all that was played, from this seed on.
    pub fn write<W: Write>(&self, from: u64, output: &mut W) -> io::Result<()> {
        writeln!(
            output,
            "{} schedules from seed {from}, {} bytes, {} steps, at most {} routes in a walk",
            self.table.played, self.bytes, self.steps, self.walks.most_routes
        )?;
        writeln!(output)?;
        self.table.write(output)
    }

    fn mark_if(&mut self, holds: bool, name: &str) {
        if holds {
            self.table.mark(name);
        }
    }

    fn count_walk(&mut self, state: &State, thread: usize, old_phase: Phase) {
        let passed = self.walks.after_step(state, thread, old_phase);
        let most = passed == Some(MOST_ROUTES_OF_A_WALK);
        self.mark_if(most, "42 routes in a walk");
        self.mark_if(passed == Some(20), "20 or more routes in a walk");
    }

    fn count_joins_at_once(&mut self, state: &State, thread: usize) {
        let joins = |t: &usize| in_join(state.threads[*t].phase);
        let joining: Vec<usize> = (0..THREADS).filter(joins).collect();
        for &t in joining.iter().filter(|&&t| t != thread) {
            self.others_steps_in_join[t] += 1;
            let steps = self.others_steps_in_join[t];
            self.mark_if(steps == 20, "20 steps of others while in 13 to 23");
            self.mark_if(steps == 100, "100 steps of others while in 13 to 23");
        }
        self.mark_if(joining.len() >= 2, "two threads in 13 to 23");
        self.mark_if(joining.len() >= 3, "three threads in 13 to 23");
        if !joining.contains(&thread) {
            self.others_steps_in_join[thread] = 0;
        }
    }
}

impl Onlooker for Counts {
    fn before_step(&mut self, state: &State, thread: usize) {
        let th = state.threads[thread];
        let node = |register: Register| register.map(|node| &state.nodes[node]);
        self.before = Glimpse {
            thread: th,
            base_valid: node(th.base).is_some_and(|b| b.valid),
            base_statistics: node(th.base).map_or(0, |b| b.statistics),
            places: state.places(),
            neighbour_valid: node(th.neighbour).is_some_and(|n| n.valid),
            walk_free: node(th.walk).is_some_and(|w| w.holder.is_none()),
        };
    }

    fn after_step(&mut self, state: &State, thread: usize, _reply: Reply) {
        let old_phase = self.before.thread.phase;
        self.steps += 1;
        self.table.mark_phase(old_phase);
        self.count_walk(state, thread, old_phase);
        self.count_joins_at_once(state, thread);
        self.count_branches(state, thread);
    }

    fn refused(&mut self, number: Refusal) {
        self.table.mark(&format!("refusal {number}"));
    }

    fn at_end(&mut self, state: &State) {
        let retired = state.threads.iter().any(|th| matches!(th.phase, 20..=23));
        self.mark_if(retired, "end in phases 20 to 23");
        self.mark_if(state.places() < 3, "end with 126 to 128 made");
        let empty = state.key_list().is_ok_and(|keys| count_keys(&keys) == 0);
        self.mark_if(empty, "end with no keys reachable");
    }
}
