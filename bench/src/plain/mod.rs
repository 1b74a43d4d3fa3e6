//! The five jobs by the library's method, in safe Rust as one would write it down from docs/RULES.md, "Refusal list" and the others: the list
//! line by line, the search and the translation record by record. Nothing is allocated.

mod open;
mod quote;
mod record;
mod search;
mod step;
mod translate;

pub use open::{check, open};
pub use quote::quote;
pub use search::search;
pub use step::step;
pub use translate::translate;
