//! The key list: "the keys of the bases reachable from the root".

use super::keys::{add_keys, Keys, NO_KEYS};
use super::numbers::NODES;
use super::refusals::{refuse, Refusal, STUCK};
use super::state::State;

impl State {
    /// "Reachable bases are listed from the left child down to each leaf, then the
    /// right." Refusal 8 for "a walk listing keys that meets a node twice".
    pub fn key_list(&self) -> Result<Keys, Refusal> {
        let mut met = [false; NODES];
        let mut listed = NO_KEYS;
        let mut to_visit = vec![self.root];
        while let Some(node) = to_visit.pop() {
            refuse(met[node], STUCK)?;
            met[node] = true;
            if self.is_route(node) {
                to_visit.push(self.nodes[node].right);
                to_visit.push(self.nodes[node].left);
            } else {
                add_keys(&mut listed, &self.nodes[node].keys);
            }
        }
        Ok(listed)
    }
}
