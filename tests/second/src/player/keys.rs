//! "A base has a set of keys": sets of keys, and what rows 6 and 12 do with them.

use super::numbers::KEYS;

/// Which keys are in the set.
pub type Keys = [bool; KEYS];

pub const NO_KEYS: Keys = [false; KEYS];

pub fn count_keys(keys: &Keys) -> usize {
    rising(keys).count()
}

/// The keys "in rising order".
pub fn rising(keys: &Keys) -> impl Iterator<Item = usize> + '_ {
    (0..KEYS).filter(|&k| keys[k])
}

/// "Split key: of n keys in rising order the one with floor(n/2) keys before it."
pub fn split_key(keys: &Keys) -> usize {
    let before = count_keys(keys) / 2;
    rising(keys)
        .nth(before)
        .expect("asked only for a set with keys")
}

/// "Smaller keys go left, the rest right."
pub fn split_at(keys: &Keys, split: usize) -> (Keys, Keys) {
    let (mut left, mut right) = (NO_KEYS, NO_KEYS);
    for k in rising(keys) {
        if k < split {
            left[k] = true;
        } else {
            right[k] = true;
        }
    }
    (left, right)
}

/// Adds the keys of another set.
pub fn add_keys(keys: &mut Keys, others: &Keys) {
    for k in rising(others) {
        keys[k] = true;
    }
}
