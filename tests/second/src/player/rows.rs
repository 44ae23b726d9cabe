//! "Phases": the table, a row found by its number. A row does its column "Step"
//! and gives the phase of its column "Then", 0 where the operation ends.

mod join;
mod search;
mod split;

use super::state::{Phase, State};

type Row = fn(&mut State, usize) -> Phase;

/// The row of a phase above 0. Row 0 is "refused".
pub fn row(phase: Phase) -> Row {
    match phase {
        1 => State::row_1,
        2 => State::row_2,
        3 => State::row_3,
        4 => State::row_4,
        5 => State::row_5,
        6 => State::row_6,
        7 => State::row_7,
        8 => State::row_8,
        9 => State::row_9,
        10 => State::row_10,
        11 => State::row_11,
        12 => State::row_12,
        13 => State::row_13,
        14 => State::row_14,
        15 => State::row_15,
        16 => State::row_16,
        17 => State::row_17,
        18 => State::row_18,
        19 => State::row_19,
        20 => State::row_20,
        21 => State::row_21,
        22 => State::row_22,
        23 => State::row_23,
        24 => State::row_24,
        25 => State::row_25,
        other => unreachable!("phase {other}"),
    }
}
