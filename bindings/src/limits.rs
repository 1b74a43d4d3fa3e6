//! The numbers of a table file and the most that there can be. `lasso.h` has the layout of the file and the same constants.

/// The version of the wrappers and of the library that they belong to.
pub const VERSION: &str = env!("CARGO_PKG_VERSION");

/// The kind of a client's table, the only kind that is opened.
pub const KIND_CLIENT: u32 = 1;
/// The kind of the table that [`translate`](crate::translate) writes.
pub const KIND_TRANSLATED: u32 = 2;

/// The mark bit of a start state.
pub const MARK_START: u8 = 1 << 0;
/// The mark bit of a state with the goal.
pub const MARK_GOAL: u8 = 1 << 1;
/// The mark bits of the members of each fairness set.
pub const MARK_SETS: [u8; MOST_SETS] = [1 << 2, 1 << 3, 1 << 4, 1 << 5];
/// The mark bit of a bad record, in a translated table only.
pub const MARK_BAD: u8 = 1 << 6;

/// The largest n.
pub const MOST_STATES: usize = 64;
/// The largest e.
pub const MOST_EDGES: usize = 1024;
/// The largest m.
pub const MOST_SETS: usize = 4;
/// The length of the longest table, 32 + 5n + 4e: 4,448.
pub const MOST_TABLE_BYTES: usize = 32 + 5 * MOST_STATES + 4 * MOST_EDGES;

/// The largest S, n(n+1)·2^(m+1): 133,120.
pub const MOST_SLOTS: usize = (MOST_STATES * (MOST_STATES + 1)) << (MOST_SETS + 1);
/// The largest E, e(n+2)·2^(m+1): 2,162,688.
pub const MOST_SLOT_EDGES: usize = (MOST_EDGES * (MOST_STATES + 2)) << (MOST_SETS + 1);
/// 266,240 words of workspace are enough for every [`search`](crate::search).
pub const MOST_WORKSPACE_WORDS: usize = 2 * MOST_SLOTS;
/// 133,120 words of report are enough for every [`search`](crate::search).
pub const MOST_REPORT_WORDS: usize = MOST_SLOTS;
/// 9,316,384 bytes of output are enough for every [`translate`](crate::translate).
pub const MOST_OUTPUT_BYTES: usize = 32 + 5 * MOST_SLOTS + 4 * MOST_SLOT_EDGES;
