//! The maker of random schedules. A schedule depends on its seed alone. The
//! maker plays each line that it writes on a state of its own, so that it can
//! steer: it sees which thread is in which phase and which base a key leads to.

mod choosing;
mod damage;
mod first_lines;
mod kinds;
mod scenes;
mod shuffling;
mod steering;
mod writing;

use crate::player::numbers::THREADS;
use crate::player::state::State;
use crate::random::Random;
use choosing::any_settings;
use first_lines::{bad_first_line, raw_bytes};

/// One schedule for a seed.
pub fn schedule(seed: u64) -> Vec<u8> {
    let mut random = Random::new(seed);
    match random.below(1000) {
        0..=14 => raw_bytes(&mut random),
        15..=44 => bad_first_line(&mut random),
        kind => Maker::new(random).of_kind(kind),
    }
}

#[derive(Clone)]
struct Maker {
    random: Random,
    out: Vec<u8>,
    state: State,
    /// The schedule stops growing about here.
    budget: usize,
    /// Keys used, a part of 0 to 63.
    key_pool: Vec<usize>,
    /// Threads used are 0 to this minus 1.
    threads_used: usize,
    /// Lines still to go by before a left thread is stepped again.
    left_for: [usize; THREADS],
    /// One line in so many is damaged; 0 for none.
    damaged_one_in: usize,
}

impl Maker {
    fn new(mut random: Random) -> Maker {
        // The first line will give other settings.
        let settings = any_settings(&mut random);
        let mut maker = Maker {
            random,
            out: Vec::new(),
            state: State::fresh(settings).unwrap(),
            budget: 0,
            key_pool: Vec::new(),
            threads_used: THREADS,
            left_for: [0; THREADS],
            damaged_one_in: 0,
        };
        maker.budget = maker.any_budget();
        maker.key_pool = maker.any_key_pool();
        maker.threads_used = maker.random.pick(&[2, 3, 4, 6, 8, 8, 8]);
        if maker.random.one_in(4) {
            maker.damaged_one_in = maker.random.pick(&[5, 12, 40]);
        }
        maker
    }

    fn of_kind(mut self, kind: usize) -> Vec<u8> {
        match kind {
            45..=84 => self.plain(),
            85..=399 => self.storm(),
            400..=589 | 850..=939 => self.spoilers(),
            590..=679 => self.tall(),
            680..=789 => self.pool_runs_out(),
            790..=849 => self.source_settings(),
            940..=964 => self.damaged_lines(),
            _ => self.at_the_byte_limit(),
        }
        self.out
    }
}
