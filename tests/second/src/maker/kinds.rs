//! The kinds of schedule, and how they stop.

use super::choosing::{any_settings, growing_settings, lively_settings, small_settings};
use super::damage::{damage, odd_numbers};
use super::Maker;
use crate::player::numbers::{KEYS, THREADS};
use crate::player::operations::{INSERT, LOOKUP};
use crate::player::settings::SOURCE_SETTINGS;
use crate::player::state::Phase;

// ---- random lines -------------------------------------------------------

impl Maker {
    /// Plain random lines, not steered.
    pub fn plain(&mut self) {
        let settings = any_settings(&mut self.random);
        self.first_line(settings);
        while self.room() {
            let t = self.random.below(self.threads_used);
            if self.random.one_in(3) {
                let operation = self.any_operation();
                let key = self.any_key();
                self.begin(t, operation, key);
            } else {
                let count = self.random.pick(&[1, 1, 1, 2, 3, 4, 5, 8, 20, 1000]);
                self.steps(t, count);
            }
        }
        self.ending();
    }

    /// Heavy contention with small settings.
    pub fn storm(&mut self) {
        let settings = if self.random.one_in(3) {
            small_settings(&mut self.random)
        } else {
            lively_settings(&mut self.random)
        };
        self.first_line(settings);
        if !self.random.one_in(4) {
            let splits = self.random.below(12);
            self.grow(splits);
        }
        while self.room() {
            self.shuffle_some(1, 20);
            match self.random.below(4) {
                0 => {
                    let key = self.any_key();
                    self.split(key);
                }
                1 => {
                    let key = self.any_key();
                    self.join_and_leave(key);
                }
                2 => self.wake_some(),
                _ => {}
            }
        }
        self.ending();
    }

    /// Many damaged lines among few good ones.
    pub fn damaged_lines(&mut self) {
        let settings = any_settings(&mut self.random);
        self.first_line(settings);
        self.damaged_one_in = 2;
        self.budget = self.budget.min(3000);
        while self.room() {
            self.shuffle(3);
            if self.random.one_in(3) {
                self.damaged_line();
            }
            if self.random.one_in(3) {
                let odd = odd_numbers(&mut self.random);
                self.line(&odd);
            }
        }
        self.ending();
    }

    fn damaged_line(&mut self) {
        let lines: [&[u8]; 3] = [b"B\t0\tI\t5", b"S\t0\t1", b"R\t1\t2\t-3\t4"];
        let line = self.random.pick(&lines);
        let mut bad = damage(&mut self.random, line);
        if self.random.one_in(3) {
            bad = damage(&mut self.random, &bad);
            bad.retain(|&c| c != b'\n');
        }
        self.line(&bad);
    }
}

// ---- trees with scenes in them ------------------------------------------

impl Maker {
    /// A tree of some size, then scenes in which one thread spoils another's
    /// plans, with random steps between them.
    pub fn spoilers(&mut self) {
        let settings = growing_settings(&mut self.random, 3);
        self.first_line(settings);
        if self.key_pool.len() < 8 {
            self.key_pool = (0..KEYS).step_by(self.random.between(1, 6)).collect();
        }
        self.threads_used = THREADS;
        let splits = self.random.between(4, 16);
        self.grow(splits);
        let scenes = self.random.between(2, 8);
        self.budget = self.budget.max(self.out.len() + 150 * scenes);
        for _ in 0..scenes {
            self.random_scene();
            self.between_scenes();
            if !self.room() {
                break;
            }
        }
        self.ending();
    }

    fn between_scenes(&mut self) {
        if self.random.one_in(2) {
            let lines = self.random.below(12);
            self.shuffle(lines);
        }
        if self.random.one_in(3) {
            self.wake_some();
        }
        // Some threads go on to their end, so that there are idle ones.
        for t in 0..THREADS {
            if self.phase(t) != 0 && self.left_for[t] == 0 && self.random.one_in(2) {
                self.finish(t);
            }
        }
    }

    /// A tall tree: a chain of up to 42 routes, then searches and joins deep in it.
    pub fn tall(&mut self) {
        let mut settings = growing_settings(&mut self.random, 4);
        settings.fail = 300;
        self.first_line(settings);
        let depth = self.random.pick(&[6, 12, 20, 30, 42, 42, 42]);
        let (low, high) = self.undamaged(|m| m.grow_a_chain(depth));
        let (one, other) = (self.random.below(KEYS), self.random.below(KEYS));
        self.key_pool = vec![low, low, high % KEYS, one, other];
        self.budget = self.out.len() + self.random.between(30, 900);
        while self.room() {
            let key = self.any_key();
            match self.random.below(6) {
                0 => self.random_scene(),
                1 => self.join_and_leave(key),
                2 => {
                    self.join(key);
                }
                3 => self.wake_some(),
                _ => self.shuffle_some(1, 6),
            }
        }
        self.ending();
    }

    /// A chain of routes to the right, to the left or both. Gives low and high: the
    /// deepest base holds the key low alone, and its keys are low to high - 1.
    fn grow_a_chain(&mut self, depth: usize) -> (usize, usize) {
        let way = self.random.below(3);
        let (mut low, mut high) = (0, KEYS);
        self.insert(0);
        for _ in 0..depth {
            if high - low < 2 {
                break;
            }
            let go_right = way == 0 || (way == 2 && self.random.one_in(2));
            let new_key = if go_right { low + 1 } else { high - 1 };
            let Some(b) = self.contended(low, INSERT, new_key) else {
                break;
            };
            self.finish(b);
            if go_right {
                low = new_key;
            } else {
                high = new_key;
            }
        }
        (low, high)
    }

    /// Splits and joins until all 128 places are gone or nearly, then more.
    pub fn pool_runs_out(&mut self) {
        let settings = lively_settings(&mut self.random);
        self.first_line(settings);
        self.threads_used = self.threads_used.max(4);
        if self.key_pool.len() < 4 {
            self.key_pool = vec![0, 21, 42, 63];
        }
        self.undamaged(Maker::use_up_places);
        self.finish_all();
        self.budget = self.out.len() + self.random.between(50, 1500);
        while self.room() {
            let key = self.any_key();
            match self.random.below(6) {
                0 | 1 => {
                    self.split(key);
                }
                2 | 3 => {
                    self.join(key);
                }
                4 => {
                    self.shuffle_some(1, 10);
                    self.wake_some();
                }
                _ => self.random_scene(),
            }
        }
        self.ending();
    }

    fn use_up_places(&mut self) {
        self.fill(self.key_pool.len());
        let stop_at = self.random.pick(&[120, 124, 125, 126]);
        let mut tries = 0;
        while self.state.made < stop_at && tries < 400 {
            tries += 1;
            let key = self.any_key();
            if self.splittable(key) && !self.random.one_in(5) {
                self.split(key);
            } else if self.random.one_in(4) {
                self.shuffle_some(1, 4);
            } else {
                self.join(key);
            }
            if self.random.one_in(8) {
                self.wake_some();
            }
            if self.idle_thread().is_none() || self.random.one_in(6) {
                self.finish_all();
            }
        }
    }
}

// ---- the source's settings ----------------------------------------------

impl Maker {
    /// The source's settings: splits after five contended takings, joins after
    /// more than a thousand others.
    pub fn source_settings(&mut self) {
        self.first_line(SOURCE_SETTINGS);
        if self.key_pool.len() < 2 {
            self.key_pool = vec![5, 9];
        }
        self.fill(self.key_pool.len().min(16));
        let key = self.key_pool[0];
        for _ in 0..self.random.between(0, 14) {
            if let Some(b) = self.contended(key, LOOKUP, key) {
                self.finish(b);
            }
        }
        if self.random.one_in(4) {
            self.look_up_until_below_min(key);
        } else if self.random.one_in(4) {
            self.take_in_turn(key);
        }
        let more = self.random.between(50, 700);
        self.budget = self.budget.min(self.out.len() + more);
        while self.room() {
            self.shuffle(5);
        }
        self.ending();
    }

    /// So many lookups that the base falls below min.
    fn look_up_until_below_min(&mut self, key: usize) {
        let near = self.random.pick(&[1000, 1001, 1002, 1260, 2010]);
        for _ in 0..near {
            if self.phase(0) == 0 && self.out.len() < 58_000 {
                self.line(format!("B\t0\tL\t{key}").as_bytes());
                self.steps(0, 30);
            }
        }
    }

    /// Many threads wait on one base and take it in turn.
    fn take_in_turn(&mut self, key: usize) {
        for _ in 0..self.random.between(2, 10) {
            for t in 0..THREADS {
                if self.phase(t) == 0 {
                    let operation = self.any_operation();
                    self.begin(t, operation, key);
                    self.step_to(t, 60, |phase| phase == 4 || phase == 5);
                }
            }
            for t in (0..3).flat_map(|_| 0..THREADS) {
                if self.phase(t) != 0 {
                    self.steps(t, 3);
                }
            }
        }
    }
}

// ---- the limit of bytes -------------------------------------------------

impl Maker {
    /// 60,000 bytes exactly, one less, one more, with and without the final
    /// newline and with a good or a bad first line.
    pub fn at_the_byte_limit(&mut self) {
        let settings = lively_settings(&mut self.random);
        self.first_line(settings);
        let length = self.random.pick(&[
            59_999, 60_000, 60_000, 60_001, 60_001, 60_002, 61_000, 70_000,
        ]);
        let scenes = self.random.one_in(3);
        let junk = self.random.one_in(3);
        self.budget = if junk { 2_000 } else { length - 2500 };
        self.damaged_one_in = 0;
        while self.room() {
            if scenes && self.random.one_in(12) && self.state.made < 120 {
                self.random_scene();
            } else {
                self.shuffle(6);
            }
            self.wake_some();
        }
        self.left_for = [0; THREADS];
        if junk {
            let fill = self.random.pick(b"\n\n0 x\t");
            self.out.resize(length.max(self.out.len()), fill);
        }
        self.fill_up(length);
        self.out.truncate(length);
        if self.random.one_in(6) {
            self.out[0] = b'Q';
        }
    }

    /// Fills up with whole lines, then with one last line of the right length.
    fn fill_up(&mut self, length: usize) {
        while self.out.len() + 60 < length {
            let t = self.random.below(THREADS);
            self.line(format!("S\t{t}\t1").as_bytes());
        }
        if self.out.len() < length {
            let missing = length - self.out.len();
            match self.random.below(3) {
                0 => self.out.extend(vec![b'x'; missing]),
                1 => self.out.extend(vec![b'\n'; missing]),
                _ => {
                    self.out.extend(vec![b'0'; missing - 1]);
                    self.out.push(b'\n');
                }
            }
        }
    }
}

// ---- how a schedule stops -----------------------------------------------

impl Maker {
    /// As it stands, with all run to their ends, or with a thread in the middle of a
    /// join.
    fn ending(&mut self) {
        self.damaged_one_in = 0;
        match self.random.below(10) {
            0..=2 => {
                for _ in 0..3 {
                    self.finish_all();
                }
            }
            3..=6 => self.stop_in_a_join(),
            _ => {}
        }
        if self.random.one_in(6) {
            // The last line may lack its newline; or there is an empty last line.
            if self.random.one_in(4) {
                self.line(b"");
            } else {
                self.out.pop();
            }
        }
    }

    /// Between splice and link, in phases 20 to 23.
    fn stop_in_a_join(&mut self) {
        let stop = self.random.between(20, 23) as Phase;
        for t in 0..THREADS {
            let joins = matches!(self.phase(t), 9..=23);
            if joins && self.step_to(t, 120, |phase| phase == stop) {
                return;
            }
        }
        let key = self.any_key();
        if let Some(t) = self.thread_at_a_join(key) {
            self.step_to(t, 120, |phase| phase == stop || phase == 23);
        }
    }
}
