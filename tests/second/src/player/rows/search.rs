//! Rows 1 to 5, the search for the base, its lock and the commit; and row 25.

use crate::player::state::{Phase, State};

impl State {
    /// 1: prev none, walk = root
    pub fn row_1(&mut self, t: usize) -> Phase {
        self.threads[t].prev = None;
        self.route_or_base_found(t, self.root)
    }

    /// 2: prev = walk, walk = its child by the operation's key; then as 1
    pub fn row_2(&mut self, t: usize) -> Phase {
        let walk = self.walk(t);
        let child = self.child_by_key(walk, self.threads[t].key);
        self.threads[t].prev = Some(walk);
        self.route_or_base_found(t, child)
    }

    /// Row 1, "Then": 2 if walk is a route; else base = walk, 3.
    fn route_or_base_found(&mut self, t: usize, walk: usize) -> Phase {
        self.threads[t].walk = Some(walk);
        if self.is_route(walk) {
            return 2;
        }
        self.threads[t].base = Some(walk);
        3
    }

    /// 3: B free: take -> 5; held -> 4
    pub fn row_3(&mut self, t: usize) -> Phase {
        let b = self.base(t);
        if self.try_at_3(b, t) {
            5
        } else {
            4
        }
    }

    /// 4: B free: take -> 5; held: waits, nothing changes -> 4
    pub fn row_4(&mut self, t: usize) -> Phase {
        let b = self.base(t);
        if self.try_at_4(b, t) {
            5
        } else {
            4
        }
    }

    /// 5: B invalid: release B -> 1; B valid: commit, then decide -> 6, 9 or 25
    pub fn row_5(&mut self, t: usize) -> Phase {
        let b = self.base(t);
        if !self.nodes[b].valid {
            self.release(b);
            return 1;
        }
        self.commit(t, b);
        self.decide(t, b)
    }

    /// 25: release B; the operation ends
    pub fn row_25(&mut self, t: usize) -> Phase {
        self.release(self.base(t));
        0
    }
}
