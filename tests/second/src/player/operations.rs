//! The operations: their numbers, their letters, their answers.

use super::keys::Keys;

/// "Operations: insert, delete, lookup, numbered 0, 1, 2."
pub const INSERT: u32 = 0;
pub const DELETE: u32 = 1;
pub const LOOKUP: u32 = 2;

/// "op I, D or L": the letter of each number.
pub const LETTERS: [u8; 3] = *b"IDL";

/// How many operations there are.
pub const OPERATIONS: u32 = LETTERS.len() as u32;

/// The operation with this field for its letter.
pub fn operation_of(field: &[u8]) -> Option<u32> {
    (0..OPERATIONS).find(|&operation| field == [LETTERS[operation as usize]])
}

/// "Insert answers 1 if the key was absent and adds it; delete answers 1 if it was
/// present and takes it out; lookup answers 1 if present; otherwise 0."
pub fn answer(operation: u32, key: usize, keys: &mut Keys) -> u32 {
    let present = keys[key];
    let one = match operation {
        INSERT => {
            keys[key] = true;
            !present
        }
        DELETE => {
            keys[key] = false;
            present
        }
        _ => present,
    };
    one as u32
}
