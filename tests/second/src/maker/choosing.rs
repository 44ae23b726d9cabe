//! What the maker chooses at random: settings, sizes, keys, operations, threads.

use super::Maker;
use crate::player::numbers::KEYS;
use crate::player::operations::{DELETE, INSERT, LOOKUP};
use crate::player::settings::{Settings, SOURCE_SETTINGS};
use crate::random::Random;

// ---- settings -----------------------------------------------------------

pub fn any_settings(random: &mut Random) -> Settings {
    match random.below(10) {
        0 => SOURCE_SETTINGS,
        1 => Settings {
            succ: random.pick(&[0, 1, 999, 1000]),
            fail: random.pick(&[0, 1, 999, 1000]),
            min: random.pick(&[-1_000_000, -999_999, -1, 0]),
            max: random.pick(&[0, 1, 999, 1000, 1_000_000]),
        },
        2 => Settings {
            succ: random.below(1001) as i32,
            fail: random.below(1001) as i32,
            min: -(random.below(2000) as i32),
            max: random.below(2000) as i32,
        },
        _ => small_settings(random),
    }
}

/// Small settings: splits and joins come often.
pub fn small_settings(random: &mut Random) -> Settings {
    let fail = match random.below(3) {
        0 => random.between(1, 4) as i32,
        1 => random.between(1, 300) as i32,
        _ => 250,
    };
    Settings {
        succ: random.below(4) as i32,
        fail,
        min: -(random.below(4) as i32),
        max: random.below(4) as i32,
    }
}

/// Settings with which one contended taking of a base splits it, and a few
/// uncontended ones join it.
pub fn lively_settings(random: &mut Random) -> Settings {
    Settings {
        succ: random.between(1, 3) as i32,
        fail: random.pick(&[8, 9, 10, 50, 100, 250, 300, 1000]),
        min: -(random.between(0, 3) as i32),
        max: random.below(4) as i32,
    }
}

/// Lively settings with which the first uncontended taking of a base does not join
/// it yet, so that the tree can grow.
pub fn growing_settings(random: &mut Random, most_below_0: usize) -> Settings {
    let settings = lively_settings(random);
    Settings {
        min: -(random.between(settings.succ as usize, most_below_0) as i32),
        ..settings
    }
}

// ---- sizes, keys, operations, threads -----------------------------------

impl Maker {
    pub fn any_budget(&mut self) -> usize {
        match self.random.below(1000) {
            0..=599 => self.random.between(100, 1200),
            600..=899 => self.random.between(1200, 4000),
            900..=984 => self.random.between(4000, 12000),
            _ => self.random.between(12000, 59000),
        }
    }

    pub fn any_key_pool(&mut self) -> Vec<usize> {
        let wanted = self.random.pick(&[1, 2, 3, 4, 6, 8, 12, 16, 24, 32, 64]);
        let mut all: Vec<usize> = (0..KEYS).collect();
        let mut pool = Vec::new();
        for _ in 0..wanted {
            let i = self.random.below(all.len());
            pool.push(all.swap_remove(i));
        }
        pool
    }

    pub fn any_key(&mut self) -> usize {
        if self.random.one_in(40) {
            self.random.below(KEYS)
        } else {
            self.random.pick(&self.key_pool)
        }
    }

    pub fn any_operation(&mut self) -> u32 {
        self.random
            .pick(&[INSERT, INSERT, INSERT, DELETE, LOOKUP, LOOKUP])
    }

    pub fn idle_thread(&mut self) -> Option<usize> {
        let idle: Vec<usize> = (0..self.threads_used)
            .filter(|&t| self.phase(t) == 0)
            .collect();
        self.random.pick_if_any(&idle)
    }

    pub fn busy_thread(&mut self) -> Option<usize> {
        let busy: Vec<usize> = (0..self.threads_used)
            .filter(|&t| self.phase(t) != 0 && self.left_for[t] == 0)
            .collect();
        self.random.pick_if_any(&busy)
    }

    /// A key that leads to this base, if it is reachable.
    pub fn key_leading_to(&mut self, base: usize) -> Option<usize> {
        let keys: Vec<usize> = (0..KEYS).filter(|&k| self.base_of(k).0 == base).collect();
        self.random.pick_if_any(&keys)
    }

    /// A key that leads to a base with this parent.
    pub fn key_under(&mut self, parent: usize) -> Option<usize> {
        let keys: Vec<usize> = (0..KEYS)
            .filter(|&k| self.base_of(k).1 == Some(parent))
            .collect();
        self.random.pick_if_any(&keys)
    }

    pub fn in_either_order(&mut self, a: usize, c: usize) -> [usize; 2] {
        if self.random.one_in(2) {
            [a, c]
        } else {
            [c, a]
        }
    }
}
