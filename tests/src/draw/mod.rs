//! Table files to compare on: small, larger and damaged ones, all from a seed, and the twelve of "Tables by hand".

pub mod damage;
pub mod hand;
pub mod large;
pub mod random;
pub mod sketch;
pub mod small;
