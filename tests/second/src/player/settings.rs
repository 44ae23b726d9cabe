//! "Settings of a run".

use super::numbers::{FAIL, MAX, MIN, SUCC};

#[derive(Clone, Copy, Debug, PartialEq, Eq)]
pub struct Settings {
    pub succ: i32,
    pub fail: i32,
    pub min: i32,
    pub max: i32,
}

/// "The source's values are 1, 250, -1000, 1000."
pub const SOURCE_SETTINGS: Settings = Settings {
    succ: 1,
    fail: 250,
    min: -1000,
    max: 1000,
};

impl Settings {
    pub fn in_range(&self) -> bool {
        SUCC.contains(&self.succ)
            && FAIL.contains(&self.fail)
            && MIN.contains(&self.min)
            && MAX.contains(&self.max)
    }
}
