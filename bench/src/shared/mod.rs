//! What both Rust versions share: the sections of a table, what the caller lends, and the rules that either version reads in the same way.

pub mod lent;
pub mod parts;
pub mod report;
pub mod sheet;
pub mod step;
