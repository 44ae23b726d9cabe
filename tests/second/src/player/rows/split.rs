//! Rows 6 to 8, the split of a base.

use crate::player::keys::{split_at, split_key};
use crate::player::numbers::PLACES_OF_A_SPLIT;
use crate::player::state::{Phase, State};

impl State {
    /// 6: fewer than 3 places: B's statistics 0 -> 25; else make left base, right
    /// base, route in that order -> 7
    pub fn row_6(&mut self, t: usize) -> Phase {
        let b = self.base(t);
        if self.places() < PLACES_OF_A_SPLIT {
            return self.statistics_0_then_25(b);
        }
        let split = split_key(&self.nodes[b].keys);
        let (smaller, rest) = split_at(&self.nodes[b].keys, split);
        let left = self.make_base(smaller);
        let right = self.make_base(rest);
        let route = self.make_route(split, left, right);
        self.threads[t].made_node = Some(route);
        7
    }

    /// 7: the new route takes B's place under P, or as root if P is none
    pub fn row_7(&mut self, t: usize) -> Phase {
        self.takes_place_under(self.made_node(t), self.base(t), self.threads[t].prev);
        8
    }

    /// 8: B invalid
    pub fn row_8(&mut self, t: usize) -> Phase {
        let b = self.base(t);
        self.nodes[b].valid = false;
        25
    }
}
