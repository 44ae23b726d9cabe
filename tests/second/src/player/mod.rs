//! The second program itself: document 01, one file for each of its subjects,
//! from the numbers up to the whole sheet.

pub mod numbers;

pub mod keys;
pub mod operations;
pub mod records;
pub mod settings;
pub mod state;

pub mod in_range;
pub mod nodes;
pub mod registers;

pub mod locks;

pub mod commit;
pub mod followers;
pub mod rows;

pub mod refusals;
pub mod stuck;

pub mod key_list;
pub mod onlooker;
pub mod step;

pub mod bytes;
pub mod forms;
pub mod sheet;
