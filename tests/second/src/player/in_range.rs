//! "A state is in range when every number is inside the above, statistics are
//! within their stops, answers 0 or 1, commit numbers at most 1,000,000, root and
//! route children are made nodes, and committed <= begun."

use super::numbers::*;
use super::operations::OPERATIONS;
use super::state::{Kind, Node, State, Thread};

impl State {
    pub fn in_range(&self) -> bool {
        let made = self.made;
        self.settings.in_range()
            && (1..=NODES).contains(&made)
            && self.root < made
            && self.begun <= MOST_BEGUN
            && self.committed <= self.begun
            && self.nodes.iter().all(|node| node_in_range(node, made))
            && self.threads.iter().all(|th| thread_in_range(th, made))
    }
}

fn node_in_range(node: &Node, made: usize) -> bool {
    let rest = match node.kind {
        Kind::Route => node.key < KEYS && node.left < made && node.right < made,
        Kind::Base => (-STATISTICS_STOP..=STATISTICS_STOP).contains(&node.statistics),
    };
    node.holder.is_none_or(|holder| holder < THREADS) && rest
}

fn thread_in_range(th: &Thread, made: usize) -> bool {
    (th.phase as usize) < PHASES
        && th.operation < OPERATIONS
        && th.key < KEYS
        && th.answer <= MOST_ANSWER
        && th.commit_number <= MOST_COMMIT_NUMBER
        && th
            .node_registers()
            .iter()
            .all(|register| register.is_none_or(|node| node < made))
}
