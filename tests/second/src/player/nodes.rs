//! Nodes: their kinds, children and places, and making them.

use super::keys::Keys;
use super::numbers::NODES;
use super::state::{Kind, Register, Side, State, UNMADE};

/// "near way" is the opposite of the kept side.
pub fn opposite(side: Side) -> Side {
    match side {
        Side::Left => Side::Right,
        Side::Right => Side::Left,
    }
}

impl State {
    pub fn is_route(&self, node: usize) -> bool {
        self.nodes[node].kind == Kind::Route
    }

    /// "Child by key k" is left if k < route key, else right.
    pub fn child_by_key(&self, route: usize, key: usize) -> usize {
        if key < self.nodes[route].key {
            self.nodes[route].left
        } else {
            self.nodes[route].right
        }
    }

    pub fn child_on(&self, route: usize, side: Side) -> usize {
        match side {
            Side::Left => self.nodes[route].left,
            Side::Right => self.nodes[route].right,
        }
    }

    /// "Far": "right if B is then P's left child, else left".
    pub fn far_side(&self, p: usize, b: usize) -> Side {
        if self.nodes[p].left == b {
            Side::Right
        } else {
            Side::Left
        }
    }

    /// "Takes X's place under Y": Y's left if that is X, else its right; as root
    /// if Y is none.
    pub fn takes_place_under(&mut self, new: usize, x: usize, y: Register) {
        match y {
            None => self.root = new,
            Some(y) if self.nodes[y].left == x => self.nodes[y].left = new,
            Some(y) => self.nodes[y].right = new,
        }
    }

    /// Places not yet used.
    pub fn places(&self) -> usize {
        NODES - self.made
    }

    pub fn make_base(&mut self, keys: Keys) -> usize {
        let base = self.make_node();
        self.nodes[base].keys = keys;
        base
    }

    pub fn make_route(&mut self, key: usize, left: usize, right: usize) -> usize {
        let route = self.make_node();
        self.nodes[route].kind = Kind::Route;
        self.nodes[route].key = key;
        self.nodes[route].left = left;
        self.nodes[route].right = right;
        route
    }

    /// "numbered in the order they are made"; "New nodes are valid and free with
    /// statistics 0."
    fn make_node(&mut self) -> usize {
        let number = self.made;
        self.made += 1;
        self.nodes[number] = UNMADE;
        self.nodes[number].valid = true;
        number
    }
}
