//! Rows 9 to 24, the join of a base with its neighbour. What holds for both sides
//! is said once, over the kept side.

use crate::player::keys::add_keys;
use crate::player::nodes::opposite;
use crate::player::state::{Phase, State};

impl State {
    /// P's far child, by the kept side.
    fn far_child(&self, t: usize) -> usize {
        self.child_on(self.prev(t), self.threads[t].side)
    }

    /// Walk's child in the near way.
    fn near_child(&self, t: usize) -> usize {
        self.child_on(self.walk(t), opposite(self.threads[t].side))
    }

    /// 9: side fixed; walk = P's far child -> 10 if route; else 11
    pub fn row_9(&mut self, t: usize) -> Phase {
        self.threads[t].side = self.far_side(self.prev(t), self.base(t));
        self.route_or_neighbour_found(t, self.far_child(t))
    }

    /// 10: walk = its child in the near way; then as 9
    pub fn row_10(&mut self, t: usize) -> Phase {
        self.route_or_neighbour_found(t, self.near_child(t))
    }

    /// Row 9, "Then": 10 if route; else 11.
    fn route_or_neighbour_found(&mut self, t: usize, walk: usize) -> Phase {
        self.threads[t].walk = Some(walk);
        if self.is_route(walk) {
            10
        } else {
            11
        }
    }

    /// 11: N = walk. N held: B's statistics 0 -> 25; free: take -> 12
    pub fn row_11(&mut self, t: usize) -> Phase {
        let n = self.walk(t);
        self.threads[t].neighbour = Some(n);
        if !self.try_lock(n, t) {
            return self.statistics_0_then_25(self.base(t));
        }
        12
    }

    /// 12: N invalid or no place: release N, B's statistics 0 -> 25; else make a
    /// base with the keys of B and N -> 13
    pub fn row_12(&mut self, t: usize) -> Phase {
        let (n, b) = (self.neighbour(t), self.base(t));
        if !self.nodes[n].valid || self.places() == 0 {
            self.release(n);
            return self.statistics_0_then_25(b);
        }
        let mut keys = self.nodes[b].keys;
        add_keys(&mut keys, &self.nodes[n].keys);
        self.threads[t].made_node = Some(self.make_base(keys));
        13
    }

    /// 13: P free: take -> 14; held: waits -> 13
    pub fn row_13(&mut self, t: usize) -> Phase {
        if self.try_lock(self.prev(t), t) {
            14
        } else {
            13
        }
    }

    /// 14: P, N, B invalid
    pub fn row_14(&mut self, t: usize) -> Phase {
        for node in [self.prev(t), self.neighbour(t), self.base(t)] {
            self.nodes[node].valid = false;
        }
        15
    }

    /// 15: G none, walk = root -> 19 if walk is P; else 16
    pub fn row_15(&mut self, t: usize) -> Phase {
        self.threads[t].grandparent = None;
        self.threads[t].walk = Some(self.root);
        if self.root == self.prev(t) {
            19
        } else {
            16
        }
    }

    /// 16: G = walk, walk = its child by P's key -> 17 if walk is P; else 16
    pub fn row_16(&mut self, t: usize) -> Phase {
        let (p, walk) = (self.prev(t), self.walk(t));
        let child = self.child_by_key(walk, self.nodes[p].key);
        self.threads[t].grandparent = Some(walk);
        self.threads[t].walk = Some(child);
        if child == p {
            17
        } else {
            16
        }
    }

    /// 17: G free: take -> 18; held: waits -> 17
    pub fn row_17(&mut self, t: usize) -> Phase {
        if self.try_lock(self.grandparent(t), t) {
            18
        } else {
            17
        }
    }

    /// 18: G invalid: release G -> 15; valid -> 19
    pub fn row_18(&mut self, t: usize) -> Phase {
        let g = self.grandparent(t);
        if !self.nodes[g].valid {
            self.release(g);
            return 15;
        }
        19
    }

    /// 19: P's far child takes P's place under G, or as root
    pub fn row_19(&mut self, t: usize) -> Phase {
        let g = self.threads[t].grandparent;
        self.takes_place_under(self.far_child(t), self.prev(t), g);
        20
    }

    /// 20: release P, and G if there is one
    pub fn row_20(&mut self, t: usize) -> Phase {
        self.release(self.prev(t));
        if let Some(g) = self.threads[t].grandparent {
            self.release(g);
        }
        21
    }

    /// 21: P's far child is N: walk = G, which may be none -> 23; else walk = that
    /// child -> 22
    pub fn row_21(&mut self, t: usize) -> Phase {
        let far = self.far_child(t);
        if far == self.neighbour(t) {
            self.threads[t].walk = self.threads[t].grandparent;
            return 23;
        }
        self.threads[t].walk = Some(far);
        22
    }

    /// 22: walk's near-way child a base: nothing changes -> 23; else walk = that
    /// child -> 22
    pub fn row_22(&mut self, t: usize) -> Phase {
        let child = self.near_child(t);
        if !self.is_route(child) {
            return 23;
        }
        self.threads[t].walk = Some(child);
        22
    }

    /// 23: the made base takes N's place under walk, or as root
    pub fn row_23(&mut self, t: usize) -> Phase {
        let walk = self.threads[t].walk;
        self.takes_place_under(self.made_node(t), self.neighbour(t), walk);
        24
    }

    /// 24: release N
    pub fn row_24(&mut self, t: usize) -> Phase {
        self.release(self.neighbour(t));
        25
    }
}
