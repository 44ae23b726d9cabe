//! Compares a program with the second program on the maker's schedules: runs it,
//! tells where the sheets differ, makes the schedule small.

pub mod running;
pub mod shrinking;
pub mod telling;
