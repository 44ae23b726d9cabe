//! Every lock is held by the thread that should hold it, and no other is held.

use crate::player::numbers::NODES;
use crate::player::state::{State, Thread};

pub fn wrong_locks(state: &State) -> Vec<String> {
    let mut wrong = Vec::new();
    let mut wanted: [Option<usize>; NODES] = [None; NODES];
    for (t, th) in state.threads.iter().enumerate() {
        for node in should_hold(th) {
            if wanted[node].is_some() {
                wrong.push(format!("node {node} should be held twice"));
            }
            wanted[node] = Some(t);
        }
    }
    for node in 0..state.made {
        let (holder, should) = (state.nodes[node].holder, wanted[node]);
        if holder != should {
            wrong.push(format!(
                "node {node} is held by {holder:?}, should be by {should:?}"
            ));
        }
    }
    wrong
}

/// B is held in phases 5 to 25, N in 12 to 24 of a join, P in 14 to 20, G in
/// 18 to 20 if there is one.
fn should_hold(th: &Thread) -> Vec<usize> {
    let locks = [
        (5..=25, th.base),
        (12..=24, th.neighbour),
        (14..=20, th.prev),
        (18..=20, th.grandparent),
    ];
    let held = locks.iter().filter(|lock| lock.0.contains(&th.phase));
    held.filter_map(|lock| lock.1).collect()
}
