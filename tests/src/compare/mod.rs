//! The comparison of the library with the independent program, table by table.

pub mod bench;
pub mod by_hand;
pub mod case;
pub mod lent;
pub mod library;
pub mod search;
pub mod step;
pub mod table;
pub mod tally;
pub mod translate;
pub mod walk;
