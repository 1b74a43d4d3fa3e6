//! The five jobs in safe Rust that need not keep to the library's method: less is looked at, and more at once. Nothing is allocated.

mod open;
mod quote;
mod search;
mod step;
mod translate;

pub use open::open;
pub use quote::quote;
pub use search::search;
pub use step::step;
pub use translate::translate;
