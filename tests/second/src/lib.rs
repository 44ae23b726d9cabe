//! An independent second program for schedules and key sheets, written from
//! document 01 alone: plain, mutable, direct. `player` is the program; the rest
//! checks it, makes schedules, counts what they reach, and compares programs.

pub mod player;

pub mod checks;
pub mod counts;
pub mod differ;
pub mod maker;

pub mod frames;
pub mod random;
