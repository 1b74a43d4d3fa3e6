//! The independent program: the five jobs and the two programs of docs/RULES.md, "What it answers", written once more from the rules alone. Nothing
//! here calls the library, and the least lasso is not found by a queue of records.

#[cfg(test)]
mod by_hand;
#[cfg(test)]
mod by_listing;
pub mod countdown;
pub mod definition;
pub mod file;
pub mod hang;
pub mod least;
pub mod lengths;
pub mod masks;
pub mod printed;
pub mod quote;
pub mod recorder;
pub mod refusal;
pub mod table;
pub mod translator;
