//! The reachable bases and the base registers of threads in phases 20 to 23
//! together hold the plain set, each key once; and the tree is in search order.

use crate::player::keys::{rising, Keys};
use crate::player::numbers::{KEYS, NODES};
use crate::player::state::State;

/// How often each key is held.
type Times = [u32; KEYS];

pub fn wrong_keys(state: &State, plain_set: &Keys) -> Vec<String> {
    let mut wrong = Vec::new();
    let mut times = [0; KEYS];
    if !count_reachable(state, &mut times, &mut wrong) {
        return wrong;
    }
    count_retired(state, &mut times);
    for key in 0..KEYS {
        let (held, has) = (times[key], plain_set[key]);
        if held != has as u32 {
            wrong.push(format!("key {key} is held {held} times, plain set: {has}"));
        }
    }
    wrong
}

fn count_keys_of(state: &State, base: usize, times: &mut Times) {
    for key in rising(&state.nodes[base].keys) {
        times[key] += 1;
    }
}

/// Counts the keys of the reachable bases, each of which must be inside what the
/// routes above leave it. False if the tree does not end.
fn count_reachable(state: &State, times: &mut Times, wrong: &mut Vec<String>) -> bool {
    let mut nodes_met = 0;
    let mut to_visit = vec![(state.root, 0, KEYS)];
    while let Some((node, low, high)) = to_visit.pop() {
        nodes_met += 1;
        if nodes_met > NODES {
            wrong.push("the tree does not end".to_string());
            return false;
        }
        if state.is_route(node) {
            let route = &state.nodes[node];
            if route.key <= low || route.key >= high {
                let key = route.key;
                wrong.push(format!("route {node} with key {key} outside {low}..{high}"));
            }
            to_visit.push((route.left, low, route.key));
            to_visit.push((route.right, route.key, high));
        } else {
            count_keys_of(state, node, times);
            for key in rising(&state.nodes[node].keys) {
                if key < low || key >= high {
                    wrong.push(format!("base {node} has key {key} outside {low}..{high}"));
                }
            }
        }
    }
    true
}

/// Between splice and link B is out of reach, and its keys are in no other base.
fn count_retired(state: &State, times: &mut Times) {
    for th in &state.threads {
        if matches!(th.phase, 20..=23) {
            count_keys_of(state, th.base.unwrap(), times);
        }
    }
}
