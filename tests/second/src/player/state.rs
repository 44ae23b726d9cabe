//! "The state": its records, and the fresh state.

use super::keys::{Keys, NO_KEYS};
use super::numbers::{NODES, THREADS};
use super::refusals::{self, Refusal};
use super::settings::Settings;

/// "A thread's phase is the step it takes next."
pub type Phase = u32;

/// "A node register is none or a made node."
pub type Register = Option<usize>;

#[derive(Clone, Copy, Debug, PartialEq, Eq)]
pub enum Kind {
    Route,
    Base,
}

#[derive(Clone, Copy, Debug, PartialEq, Eq)]
pub enum Side {
    Left,
    Right,
}

/// "A route has key, left, right, lock holder, valid. A base has a set of keys,
/// lock holder, statistics, valid." One record serves both kinds; the fields
/// that a node's kind does not have are never looked at.
#[derive(Clone, Copy, Debug, PartialEq, Eq)]
pub struct Node {
    pub kind: Kind,
    pub valid: bool,
    pub holder: Option<usize>,
    // a route's own
    pub key: usize,
    pub left: usize,
    pub right: usize,
    // a base's own
    pub statistics: i32,
    pub keys: Keys,
}

/// "A thread has phase 0 to 25, operation, key, prev, base, walk, neighbour,
/// grandparent, made node, answer, commit number, side."
#[derive(Clone, Copy, Debug, PartialEq, Eq)]
pub struct Thread {
    pub phase: Phase,
    pub operation: u32,
    pub key: usize,
    pub prev: Register,
    pub base: Register,
    pub walk: Register,
    pub neighbour: Register,
    pub grandparent: Register,
    pub made_node: Register,
    pub answer: u32,
    pub commit_number: u32,
    /// "Far" is fixed at phase 9 and kept as side.
    pub side: Side,
}

/// "Root node number; count of nodes made (1 to 128); counts of begun and
/// committed operations; settings; nodes; threads."
#[derive(Clone, Debug, PartialEq, Eq)]
pub struct State {
    pub root: usize,
    pub made: usize,
    pub begun: u32,
    pub committed: u32,
    pub settings: Settings,
    pub nodes: [Node; NODES],
    pub threads: [Thread; THREADS],
}

/// "all 128 places ... otherwise zero or none"
pub const UNMADE: Node = Node {
    kind: Kind::Base,
    valid: false,
    holder: None,
    key: 0,
    left: 0,
    right: 0,
    statistics: 0,
    keys: NO_KEYS,
};

/// "all threads otherwise zero or none"
pub const FRESH_THREAD: Thread = Thread {
    phase: 0,
    operation: 0,
    key: 0,
    prev: None,
    base: None,
    walk: None,
    neighbour: None,
    grandparent: None,
    made_node: None,
    answer: 0,
    commit_number: 0,
    side: Side::Left,
};

impl State {
    /// "Fresh: node 0 is a valid, free, empty base with statistics 0 and is the
    /// root; made 1".
    pub fn fresh(settings: Settings) -> Result<State, Refusal> {
        refusals::of_settings(settings)?;
        let mut state = State {
            root: 0,
            made: 1,
            begun: 0,
            committed: 0,
            settings,
            nodes: [UNMADE; NODES],
            threads: [FRESH_THREAD; THREADS],
        };
        state.nodes[0].valid = true;
        Ok(state)
    }
}
