//! What the lines after the first say: begins and counted steps.

/// "B thread op key"
#[derive(Clone, Copy, Debug, PartialEq, Eq)]
pub struct Begin {
    pub thread: usize,
    pub operation: u32,
    pub key: usize,
}

/// "S thread n"
#[derive(Clone, Copy, Debug, PartialEq, Eq)]
pub struct Steps {
    pub thread: usize,
    pub count: u32,
}

#[derive(Clone, Copy, Debug, PartialEq, Eq)]
pub enum Line {
    Begin(Begin),
    Steps(Steps),
}
