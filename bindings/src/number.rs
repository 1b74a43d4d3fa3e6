//! The numbers of the refusals. What each means, and their order: [`REFUSALS`](crate::REFUSALS).
pub const TOO_SHORT: u32 = 1;
pub const WRONG_KIND: u32 = 2;
pub const WRONG_STATES: u32 = 3;
pub const WRONG_EDGES: u32 = 14;
pub const WRONG_SETS: u32 = 15;
pub const WRONG_LAYOUT: u32 = 4;
pub const WRONG_ROW_START: u32 = 5;
pub const WRONG_TARGET: u32 = 6;
pub const EMPTY_ROW: u32 = 7;
pub const WRONG_MARK: u32 = 8;
pub const SHORT_WORKSPACE: u32 = 9;
pub const SHORT_REPORT: u32 = 10;
pub const SHORT_OUTPUT: u32 = 11;
pub const WRONG_RECORD: u32 = 12;
pub const NO_EDGE: u32 = 13;
