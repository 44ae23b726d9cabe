//! Refusal 8: "a step ... is stuck".

use super::keys::count_keys;
use super::state::{Register, State};

impl State {
    /// "a register that the row names without first setting it (P at 5 only below
    /// min) is none where the row doesn't allow it, or of the wrong kind (routes: P,
    /// G, the made node at 7, walk at 2, 10, 16, 22, 23; bases: B, N, the made node
    /// at 23, walk at 11)". Every register that the row names is tested, whichever
    /// branch would be taken.
    pub fn stuck(&self, t: usize) -> bool {
        let th = &self.threads[t];
        let (p, b, n) = (th.prev, th.base, th.neighbour);
        let (g, walk, made) = (th.grandparent, th.walk, th.made_node);
        let good = match th.phase {
            1 => true,
            2 => self.a_route(walk),
            3 | 4 => self.a_base(b),
            5 => self.a_base(b) && !self.stuck_at_5(t),
            6 => self.a_base(b) && !self.stuck_at_6(t),
            7 => self.a_route(made) && self.a_base(b) && self.none_or_a_route(p),
            8 => self.a_base(b),
            9 => self.a_route(p) && self.a_base(b),
            10 => self.a_route(walk),
            11 => self.a_base(walk) && self.a_base(b),
            12 => self.a_base(n) && self.a_base(b),
            13 => self.a_route(p),
            14 => self.a_route(p) && self.a_base(n) && self.a_base(b),
            15 => self.a_route(p),
            16 => self.a_route(walk) && self.a_route(p),
            17 | 18 => self.a_route(g),
            19 | 20 => self.a_route(p) && self.none_or_a_route(g),
            21 => self.a_route(p) && self.a_base(n) && self.none_or_a_route(g),
            22 => self.a_route(walk),
            23 => self.a_base(made) && self.a_base(n) && self.none_or_a_route(walk),
            24 => self.a_base(n),
            25 => self.a_base(b),
            other => unreachable!("phase {other}"),
        };
        !good
    }

    /// "a commit when committed = begun"; "P at 5 only below min". The row for an
    /// invalid B names B alone.
    fn stuck_at_5(&self, t: usize) -> bool {
        let b = self.base(t);
        let p = self.threads[t].prev;
        self.nodes[b].valid
            && (self.committed == self.begun || self.below_min(b) && !self.none_or_a_route(p))
    }

    /// "phase 6 on a base with fewer than 2 keys". "At phase 6 refusal 8 is tested
    /// before the places."
    fn stuck_at_6(&self, t: usize) -> bool {
        count_keys(&self.nodes[self.base(t)].keys) < 2
    }

    fn a_route(&self, register: Register) -> bool {
        register.is_some_and(|node| self.is_route(node))
    }

    fn a_base(&self, register: Register) -> bool {
        register.is_some_and(|node| !self.is_route(node))
    }

    fn none_or_a_route(&self, register: Register) -> bool {
        register.is_none() || self.a_route(register)
    }
}
