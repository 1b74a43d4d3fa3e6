//! The five jobs. Nothing here decides anything: each function calls the one of its name in `lasso.h`, and turns the returned number and the words of
//! the answer into a Rust value.
use crate::answers::{Found, Record, Sheet, Table};
use crate::c;
use crate::refusal::Refusal;

fn refused_or<T>(number: u32, place: usize, answer: T) -> Result<T, Refusal> {
    if number == 0 {
        Ok(answer)
    } else {
        Err(Refusal { number, place })
    }
}

/// Accepts or refuses the table.
pub fn open(table: &[u8]) -> Result<Table, Refusal> {
    let mut a = [0; 4];
    // SAFETY: the slice and the array are the caller's and ours for the call, and the function keeps to their lengths.
    let number = unsafe { c::lasso_open(table.as_ptr(), table.len(), &mut a) };
    let opened = Table {
        states: a[1],
        edges: a[2],
        sets: a[3],
    };
    refused_or(number, a[0], opened)
}

/// The quote sheet of the table.
pub fn quote(table: &[u8]) -> Result<Sheet, Refusal> {
    let mut a = [0; 9];
    // SAFETY: as in `open`.
    let number = unsafe { c::lasso_quote(table.as_ptr(), table.len(), &mut a) };
    let sheet = Sheet {
        slots: a[1],
        edges: a[2],
        bytes: a[3],
        board: a[4],
        members: [a[5], a[6], a[7], a[8]],
    };
    refused_or(number, a[0], sheet)
}

/// Searches the table for its least lasso, in the words of the workspace, and reports its states.
///
/// With S slots, which [`quote`] tells in [`Sheet::slots`], the workspace needs 2S words and the report S words: at most 266,240
/// ([`MOST_WORKSPACE_WORDS`](crate::MOST_WORKSPACE_WORDS)) and 133,120 ([`MOST_REPORT_WORDS`](crate::MOST_REPORT_WORDS)). A shorter workspace is
/// refused with [`number::SHORT_WORKSPACE`](crate::number::SHORT_WORKSPACE), a shorter report with
/// [`number::SHORT_REPORT`](crate::number::SHORT_REPORT). What the two hold before does not matter.
///
/// Afterwards the first 2S words of the workspace are 0. With a lasso the first k+1 words of the report are its states s0 to sk. All other words are
/// as they were. A refused search changes no word.
pub fn search(table: &[u8], workspace: &mut [u32], report: &mut [u32]) -> Result<Found, Refusal> {
    let mut a = [0; 4];
    // SAFETY: as in `open`; the two buffers are lent to us alone, so they do not overlap.
    let number = unsafe {
        c::lasso_search(
            table.as_ptr(),
            table.len(),
            workspace.as_mut_ptr(),
            workspace.len(),
            report.as_mut_ptr(),
            report.len(),
            &mut a,
        )
    };
    let found = if a[1] == 1 { Found::Lasso { k: a[2], l: a[3] } } else { Found::Holds };
    refused_or(number, a[0], found)
}

/// Writes the translated table over the first bytes of the output, and answers how many.
///
/// With S slots and E edges the output needs 32 + 5S + 4E bytes, which [`quote`] tells in [`Sheet::bytes`]: at most 9,316,384
/// ([`MOST_OUTPUT_BYTES`](crate::MOST_OUTPUT_BYTES)). A shorter output is refused with [`number::SHORT_OUTPUT`](crate::number::SHORT_OUTPUT).
///
/// The bytes after those that are written are as they were. A refused translation changes no byte.
pub fn translate(table: &[u8], output: &mut [u8]) -> Result<usize, Refusal> {
    let mut a = [0; 2];
    // SAFETY: as in `open`.
    let number = unsafe { c::lasso_translate(table.as_ptr(), table.len(), output.as_mut_ptr(), output.len(), &mut a) };
    refused_or(number, a[0], a[1])
}

/// Moves the record along the edge to `next`, with a save wish.
pub fn step(table: &[u8], record: Record, next: usize, wish: bool) -> Result<Record, Refusal> {
    let mut a = [0; 5];
    let Record { s, t, live, v } = record;
    // SAFETY: as in `open`.
    let number = unsafe { c::lasso_step(table.as_ptr(), table.len(), s, t, live, v, next, wish, &mut a) };
    let moved = Record {
        s: a[1],
        t: a[2],
        live: a[3] != 0,
        v: a[4],
    };
    refused_or(number, a[0], moved)
}
