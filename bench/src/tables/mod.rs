//! The tables that are measured and compared.

pub mod cases;
pub mod damaged;
pub mod drawn;
pub mod hand;
pub mod holding;
pub mod lassos;
pub mod sketch;

pub use sketch::Sketch;
