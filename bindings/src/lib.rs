//! Can this block wait for ever? Safe wrappers of the library's five jobs over one table in memory.
//!
//! `lasso.h`, beside this package's sources, has the layout of a table file. One state that leads to itself, as a table of 41 bytes:
//!
//! ```
//! use lasso::{Found, KIND_CLIENT, MARK_START};
//!
//! // Kind, states, edges, sets, the three offsets; the row starts; the target.
//! let numbers = [KIND_CLIENT, 1, 1, 0, 28, 36, 40, 0, 1, 0];
//! let mut table: Vec<u8> = numbers.iter().flat_map(|number| number.to_le_bytes()).collect();
//! table.push(MARK_START);
//! assert_eq!(table.len(), 41);
//!
//! let sheet = lasso::quote(&table)?;
//! assert_eq!((sheet.slots, sheet.edges, sheet.bytes, sheet.board), (4, 6, 76, 0));
//!
//! let mut workspace = vec![0; 2 * sheet.slots];
//! let mut report = vec![0; sheet.slots];
//! let found = lasso::search(&table, &mut workspace, &mut report)?;
//! assert_eq!(found, Found::Lasso { k: 0, l: 0 });
//! assert_eq!(report[..=0], [0]);
//!
//! let refusal = lasso::search(&table, &mut workspace[1..], &mut report).unwrap_err();
//! assert_eq!(refusal.number, lasso::number::SHORT_WORKSPACE);
//! assert_eq!(refusal.to_string(), "refused 9 0: search: fewer than 2S workspace words");
//! # Ok::<(), lasso::Refusal>(())
//! ```
//!
//! All functions may be called from many threads at once: the library keeps nothing between calls. It allocates nothing; the caller lends the
//! buffers.
mod answers;
mod boards;
mod c;
mod jobs;
mod limits;
pub mod number;
mod refusal;

pub use answers::{Found, Record, Sheet, Table};
pub use boards::{Board, BOARDS, NO_BOARD};
pub use jobs::{open, quote, search, step, translate};
pub use limits::*;
pub use refusal::{Line, Place, Refusal, NO_LINE, REFUSALS};
