//! "The table of phases that may follow each phase".

use super::numbers::PHASES;
use super::state::Phase;

/// Read off the column "Then". Phase 0 is "refused": no step follows it.
pub const FOLLOWERS: [&[Phase]; PHASES] = [
    &[],            // 0
    &[2, 3],        // 1
    &[2, 3],        // 2
    &[4, 5],        // 3
    &[4, 5],        // 4
    &[1, 6, 9, 25], // 5
    &[7, 25],       // 6
    &[8],           // 7
    &[25],          // 8
    &[10, 11],      // 9
    &[10, 11],      // 10
    &[12, 25],      // 11
    &[13, 25],      // 12
    &[13, 14],      // 13
    &[15],          // 14
    &[16, 19],      // 15
    &[16, 17],      // 16
    &[17, 18],      // 17
    &[15, 19],      // 18
    &[20],          // 19
    &[21],          // 20
    &[22, 23],      // 21
    &[22, 23],      // 22
    &[24],          // 23
    &[25],          // 24
    &[0],           // 25
];

/// A wait is a step at 4, 13 or 17 that finds the lock held.
pub fn is_wait(old_phase: Phase, new_phase: Phase) -> bool {
    matches!(old_phase, 4 | 13 | 17) && new_phase == old_phase
}
