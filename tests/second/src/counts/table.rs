//! The table of what is reached: in how many schedules, and how often.

use super::branches::BRANCHES;
use crate::player::numbers::PHASES;
use crate::player::refusals::*;
use crate::player::state::Phase;
use std::io::{self, Write};

/// The refusals that a file can bring.
const REFUSALS: [Refusal; 8] = [
    NO_FORM,
    NO_SETTINGS,
    THREAD,
    KEY,
    BUSY,
    IDLE,
    COUNT,
    TOO_LONG,
];

struct Entry {
    name: String,
    /// How many schedules reached it.
    schedules: u64,
    /// How many times in all.
    times: u64,
    in_this_one: u64,
}

pub struct Table {
    /// First the phases from 1 on.
    entries: Vec<Entry>,
    pub played: u64,
}

impl Table {
    pub fn new() -> Table {
        let phases = (1..PHASES).map(|phase| format!("phase {phase}"));
        let branches = BRANCHES.iter().map(|branch| branch.to_string());
        let refusals = REFUSALS.iter().map(|number| format!("refusal {number}"));
        let entry = |name| Entry {
            name,
            schedules: 0,
            times: 0,
            in_this_one: 0,
        };
        Table {
            entries: phases.chain(branches).chain(refusals).map(entry).collect(),
            played: 0,
        }
    }

    pub fn mark_phase(&mut self, phase: Phase) {
        self.entries[phase as usize - 1].in_this_one += 1;
    }

    /// Marks a branch or a refusal.
    pub fn mark(&mut self, name: &str) {
        let entry = self.entries[PHASES - 1..]
            .iter_mut()
            .find(|entry| entry.name == name);
        entry.expect("it has a name in the table").in_this_one += 1;
    }

    pub fn end_of_schedule(&mut self) {
        for entry in &mut self.entries {
            entry.times += entry.in_this_one;
            entry.schedules += (entry.in_this_one > 0) as u64;
            entry.in_this_one = 0;
        }
        self.played += 1;
    }

    pub fn write<W: Write>(&self, output: &mut W) -> io::Result<()> {
        writeln!(output, "| reached | schedules | 1 in | times |")?;
        writeln!(output, "|---|---:|---:|---:|")?;
        for entry in &self.entries {
            let one_in = match entry.schedules {
                0 => "never".to_string(),
                n => format!("{:.1}", self.played as f64 / n as f64),
            };
            writeln!(
                output,
                "| {} | {} | {one_in} | {} |",
                entry.name, entry.schedules, entry.times
            )?;
        }
        Ok(())
    }
}
