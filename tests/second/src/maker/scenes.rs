//! Scenes in which one thread spoils another's plans. Most are played on a trial
//! and kept if they come out.

use super::Maker;
use crate::player::nodes::opposite;
use crate::player::numbers::{KEYS, THREADS};
use crate::player::operations::LOOKUP;
use crate::player::state::{Phase, Side};

/// A scene goes on only if this holds.
fn only_if(holds: bool) -> Option<()> {
    holds.then_some(())
}

/// Where two joins can cross: a route X with a base `high` on one side and on
/// the other a route R, whose near child is a route and whose far child is a
/// base `low`. The join of `high` has P = X; the join of `low` has P = R and
/// G = X; and their neighbours are two.
#[derive(Clone, Copy)]
struct Crossing {
    x: usize,
    high: usize,
    low: usize,
}

// ---- choosing and trying ------------------------------------------------

impl Maker {
    pub fn random_scene(&mut self) {
        let key = self.any_key();
        match self.random.below(16) {
            0 | 1 => {
                self.split(key);
            }
            2 | 3 => self.join_and_leave(key),
            4 => {
                self.join(key);
            }
            5 | 6 => {
                self.prepare_crossing();
                self.try_scene(8, Maker::scene_g_invalid);
            }
            7 => self.try_scene(3, Maker::scene_n_invalid),
            8 => self.scene_retry(),
            9 => self.try_scene(2, Maker::scene_long_way_to_n),
            10 | 11 => {
                self.prepare_crossing();
                self.try_scene(8, Maker::scene_far_child_changes);
            }
            12 | 13 => self.scene_many_joins(),
            _ => self.try_scene(3, Maker::scene_joins_meet),
        }
    }

    /// Plays a scene on a trial and keeps it if it comes out.
    fn try_scene(&mut self, tries: usize, scene: impl Fn(&mut Maker) -> Option<()>) {
        for _ in 0..tries {
            let mut trial = self.clone();
            if trial.undamaged(&scene).is_some() {
                *self = trial;
                return;
            }
            // Another try goes another way.
            self.random = trial.random;
        }
    }

    /// Steps a thread to a phase without which the scene does not come out.
    fn must_step_to(
        &mut self,
        t: usize,
        most: usize,
        wanted: impl Fn(Phase) -> bool,
    ) -> Option<()> {
        only_if(self.step_to(t, most, wanted))
    }

    fn must_come_to_a_join(&mut self, t: usize, key: usize) -> Option<()> {
        only_if(self.to_a_join(t, key))
    }
}

// ---- two joins that cross -----------------------------------------------

impl Maker {
    fn crossings(&self) -> Vec<Crossing> {
        let mut found = Vec::new();
        let mut to_visit = vec![self.state.root];
        while let Some(x) = to_visit.pop() {
            if self.state.is_route(x) {
                to_visit.push(self.state.nodes[x].left);
                to_visit.push(self.state.nodes[x].right);
                found.extend(self.crossing_at(x, Side::Left));
                found.extend(self.crossing_at(x, Side::Right));
            }
        }
        found
    }

    fn crossing_at(&self, x: usize, side: Side) -> Option<Crossing> {
        let state = &self.state;
        let high = state.child_on(x, opposite(side));
        let r = state.child_on(x, side);
        only_if(!state.is_route(high) && state.is_route(r))?;
        let near = state.child_on(r, opposite(side));
        let low = state.child_on(r, side);
        only_if(state.is_route(near) && !state.is_route(low))?;
        Some(Crossing { x, high, low })
    }

    /// Splits bases until there is a crossing, if it comes soon.
    fn prepare_crossing(&mut self) {
        for _ in 0..8 {
            if !self.crossings().is_empty() || self.state.made > 110 {
                return;
            }
            let key = self.random.below(KEYS);
            if self.splittable(key) {
                self.split(key);
            } else {
                self.insert(key);
            }
        }
    }

    /// The route X of a crossing, with a key that leads to each of its two bases,
    /// high and low.
    fn any_crossing(&mut self) -> Option<(usize, usize, usize)> {
        let found = self.crossings();
        let crossing = self.random.pick_if_any(&found)?;
        let high_key = self.key_leading_to(crossing.high)?;
        let low_key = self.key_leading_to(crossing.low)?;
        Some((crossing.x, high_key, low_key))
    }

    /// G is spliced out by another join while a thread waits to take it: row 18
    /// finds it invalid.
    fn scene_g_invalid(&mut self) -> Option<()> {
        let (x, high_key, low_key) = self.any_crossing()?;
        let a = self.thread_at_a_join(low_key)?;
        self.must_step_to(a, 120, |phase| phase == 17)?;
        only_if(self.state.threads[a].grandparent == Some(x))?;
        let c = self.thread_at_a_join(high_key)?;
        let stop = self.random.between(14, 20) as Phase;
        self.must_step_to(c, 120, |phase| phase >= stop && phase <= 24)?;
        if self.state.nodes[x].holder.is_some() {
            self.some_steps(a, 1, 4);
        }
        self.must_step_to(c, 120, |phase| matches!(phase, 21..=24))?;
        only_if(!self.state.nodes[x].valid)?;
        self.must_step_to(a, 10, |phase| phase == 18)?;
        if self.random.one_in(2) {
            self.finish(c);
        }
        self.step_to(a, 1, |phase| phase == 15);
        match self.random.below(4) {
            0 | 1 => {
                self.finish(a);
            }
            2 => self.go_on_and_leave(a, 16),
            _ => self.leave(a),
        }
        Some(())
    }

    /// The join below takes X as its G first; the join above, which has seen X's
    /// far child at 9, waits for X at 13 and finds another far child at 21.
    fn scene_far_child_changes(&mut self) -> Option<()> {
        let (x, high_key, low_key) = self.any_crossing()?;
        let (a, c) = (self.idle_thread()?, self.idle_thread()?);
        only_if(a != c)?;
        // Bring both near their joins, in either order.
        let above_first = self.random.one_in(2);
        if above_first {
            let stop = self.random.between(9, 13) as Phase;
            self.must_come_to_a_join(a, high_key)?;
            self.must_step_to(a, 60, |phase| phase >= stop && phase <= 13)?;
        }
        self.must_come_to_a_join(c, low_key)?;
        let stop = self.random.between(18, 19) as Phase;
        self.must_step_to(c, 120, |phase| phase == stop)?;
        only_if(self.state.threads[c].grandparent == Some(x))?;
        if !above_first {
            self.must_come_to_a_join(a, high_key)?;
        }
        self.must_step_to(a, 60, |phase| phase == 13)?;
        if self.random.one_in(2) {
            self.some_steps(a, 1, 5);
        }
        let stop = self.random.between(20, 24) as Phase;
        self.must_step_to(c, 20, |phase| phase >= stop)?;
        self.some_steps(a, 1, 2);
        for t in self.in_either_order(a, c) {
            match self.random.below(4) {
                0 | 1 => {
                    self.finish(t);
                }
                2 => self.go_on_and_leave(t, 14),
                _ => {}
            }
        }
        Some(())
    }
}

// ---- several joins ------------------------------------------------------

impl Maker {
    /// Several threads are brought into joins at once and left there.
    fn scene_many_joins(&mut self) {
        for _ in 0..self.random.between(3, 7) {
            let Some(t) = self.idle_thread() else {
                return;
            };
            let key = self.random.below(KEYS);
            let stop = self.random.between(13, 23) as Phase;
            self.try_scene(3, |m| {
                m.must_come_to_a_join(t, key)?;
                m.must_step_to(t, 120, |phase| phase >= stop && phase <= 23)
            });
            self.leave(t);
            if self.random.one_in(2) {
                let lines = self.random.below(5);
                self.shuffle(lines);
            }
        }
        // Then all of them move in turn, a step or a few at a time.
        for _ in 0..self.random.below(30) {
            let t = self.random.below(THREADS);
            if self.phase(t) != 0 {
                let count = self.random.pick(&[1, 1, 1, 2, 3]);
                self.steps(t, count);
            }
        }
    }

    /// A join above and a join below that take the same route: the one waits at
    /// 13 or 17 for the other, and P's far child changes under the one above.
    fn scene_joins_meet(&mut self) -> Option<()> {
        let a = self.idle_thread()?;
        let key = self.any_key();
        let stop = self.random.between(11, 14) as Phase;
        self.must_come_to_a_join(a, key)?;
        self.must_step_to(a, 60, |phase| phase >= stop && phase <= 24)?;
        let p = self.state.prev(a);
        let far = self.state.child_on(p, self.state.threads[a].side);
        let c = self.idle_thread()?;
        let other = if self.state.is_route(far) && self.random.one_in(2) {
            self.key_under(far)?
        } else {
            self.any_key()
        };
        self.must_come_to_a_join(c, other)?;
        let stop = self.random.between(17, 19) as Phase;
        self.must_step_to(c, 120, |phase| phase >= stop && phase <= 24)?;
        only_if(self.met(a, c, p))?;
        self.some_steps(a, 1, 6);
        for t in self.in_either_order(a, c) {
            match self.random.below(3) {
                0 => {
                    self.finish(t);
                }
                1 => self.go_on_and_leave(t, 13),
                _ => {}
            }
        }
        Some(())
    }

    /// Whether the joins of two threads have a route in common.
    fn met(&self, a: usize, c: usize, p: usize) -> bool {
        let (a, c) = (&self.state.threads[a], &self.state.threads[c]);
        c.grandparent == Some(p) || c.prev == Some(p) || a.grandparent == c.prev
    }
}

// ---- bases that change under a thread -----------------------------------

impl Maker {
    /// A thread has chosen its neighbour and not yet tried it; the neighbour is
    /// split, or joined away: row 12 finds it invalid.
    fn scene_n_invalid(&mut self) -> Option<()> {
        let a = self.idle_thread()?;
        let key = self.any_key();
        self.must_come_to_a_join(a, key)?;
        self.must_step_to(a, 60, |phase| phase == 11)?;
        let n = self.state.walk(a);
        let there = self.key_leading_to(n)?;
        let changed = if self.random.one_in(3) {
            self.join(there)
        } else {
            self.split(there)
        };
        let node = &self.state.nodes[n];
        only_if(changed && !node.valid && node.holder.is_none())?;
        self.step_to(a, 2, |phase| phase == 12);
        if self.random.one_in(2) {
            self.finish(a);
        } else {
            self.steps(a, 1);
        }
        Some(())
    }

    /// Threads wait for a base that is then split: they retry at 5.
    fn scene_retry(&mut self) {
        let key = self.any_key();
        let (base, _) = self.base_of(key);
        let Some(b) = self.contended(key, LOOKUP, key) else {
            return;
        };
        let waiters = self.waiters_for(base);
        self.finish(b);
        for t in waiters {
            if self.random.one_in(2) {
                self.finish(t);
            } else {
                self.step_to(t, 3, |phase| phase == 1);
            }
        }
    }

    /// One to four threads brought to the lock of a base that is held.
    fn waiters_for(&mut self, base: usize) -> Vec<usize> {
        let waiting = self.random.between(1, 4);
        let mut waiters = Vec::new();
        for _ in 0..waiting {
            if let (Some(t), Some(key)) = (self.idle_thread(), self.key_leading_to(base)) {
                let operation = self.any_operation();
                self.begin(t, operation, key);
                let stop = self.random.between(3, 4) as Phase;
                self.step_to(t, 60, |phase| phase == stop);
                waiters.push(t);
            }
        }
        waiters
    }

    /// A join whose way to N at 21 to 23 goes through two routes or more.
    fn scene_long_way_to_n(&mut self) -> Option<()> {
        let long = |key: &usize| self.routes_to_neighbour(*key) >= 2;
        let keys: Vec<usize> = (0..KEYS).filter(long).collect();
        let key = self.random.pick_if_any(&keys)?;
        let t = self.thread_at_a_join(key)?;
        self.must_step_to(t, 120, |phase| phase == 22)?;
        match self.random.below(3) {
            0 => {
                self.finish(t);
            }
            1 => {
                self.steps(t, 1);
                self.leave(t);
            }
            _ => {
                self.step_to(t, 60, |phase| phase == 23);
                self.leave(t);
            }
        }
        Some(())
    }

    /// How many routes stand between the parent of a key's base and the neighbour.
    fn routes_to_neighbour(&self, key: usize) -> usize {
        let (base, Some(p)) = self.base_of(key) else {
            return 0;
        };
        let side = self.state.far_side(p, base);
        let mut routes = 0;
        let mut node = self.state.child_on(p, side);
        while self.state.is_route(node) {
            routes += 1;
            node = self.state.child_on(node, opposite(side));
        }
        routes
    }
}
