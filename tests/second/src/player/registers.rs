//! The node registers of a thread. Rows read them only after refusal 8 was tested,
//! so those that a row needs are not none.

use super::state::{Register, State, Thread};

impl Thread {
    pub fn node_registers(&self) -> [Register; 6] {
        [
            self.prev,
            self.base,
            self.walk,
            self.neighbour,
            self.grandparent,
            self.made_node,
        ]
    }
}

/// "P is prev, B base, N neighbour, G grandparent."
impl State {
    pub fn prev(&self, t: usize) -> usize {
        self.threads[t].prev.unwrap()
    }

    pub fn base(&self, t: usize) -> usize {
        self.threads[t].base.unwrap()
    }

    pub fn walk(&self, t: usize) -> usize {
        self.threads[t].walk.unwrap()
    }

    pub fn neighbour(&self, t: usize) -> usize {
        self.threads[t].neighbour.unwrap()
    }

    pub fn grandparent(&self, t: usize) -> usize {
        self.threads[t].grandparent.unwrap()
    }

    /// "The made node is phase 6's route or phase 12's base."
    pub fn made_node(&self, t: usize) -> usize {
        self.threads[t].made_node.unwrap()
    }
}
