//! What the jobs answer where they are not refused.

/// An accepted table: n states, e edges, m fairness sets.
#[derive(Clone, Copy, Debug, PartialEq, Eq)]
pub struct Table {
    pub states: usize,
    pub edges: usize,
    pub sets: usize,
}

/// The quote sheet of the recorded table: S slots, E edges, the bytes of its translation, and the members of fairness sets 0 to 3.
///
/// The board is its place in [`BOARDS`](crate::BOARDS), or [`NO_BOARD`](crate::NO_BOARD).
#[derive(Clone, Copy, Debug, PartialEq, Eq)]
pub struct Sheet {
    pub slots: usize,
    pub edges: usize,
    pub bytes: usize,
    pub board: usize,
    pub members: [usize; 4],
}

/// What a search that is not refused found.
#[derive(Clone, Copy, Debug, PartialEq, Eq)]
pub enum Found {
    /// The states s0 to sk stand in the report; sk leads back to place l.
    Lasso { k: usize, l: usize },
    /// There is no lasso.
    Holds,
}

/// State s, saved t (a state, or n for nothing), flag live, fairness bits v.
#[derive(Clone, Copy, Debug, PartialEq, Eq)]
pub struct Record {
    pub s: usize,
    pub t: usize,
    pub live: bool,
    pub v: usize,
}
