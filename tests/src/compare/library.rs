//! The library's answers in the words of the independent program, so that the two can be compared.

use crate::independent::quote::Quote;
use crate::independent::recorder::Record;
use crate::independent::refusal::Refusal;

fn refusal(refusal: lasso::Refusal) -> Refusal {
    Refusal {
        number: refusal.number,
        place: refusal.place,
    }
}

/// n, e and m of an accepted table.
pub fn open(table: &[u8]) -> Result<(usize, usize, usize), Refusal> {
    lasso::open(table).map(|table| (table.states, table.edges, table.sets)).map_err(refusal)
}

pub fn quote(table: &[u8]) -> Result<Quote, Refusal> {
    let sheet = lasso::quote(table).map_err(refusal)?;
    Ok(Quote {
        slots: sheet.slots,
        edges: sheet.edges,
        bytes: sheet.bytes,
        board: sheet.board,
        members: sheet.members,
    })
}

/// k and l of a lasso, or nothing for "holds".
pub type Found = Option<(usize, usize)>;

pub fn search(table: &[u8], workspace: &mut [u32], report: &mut [u32]) -> Result<Found, Refusal> {
    match lasso::search(table, workspace, report).map_err(refusal)? {
        lasso::Found::Lasso { k, l } => Ok(Some((k, l))),
        lasso::Found::Holds => Ok(None),
    }
}

/// How many bytes are written.
pub fn translate(table: &[u8], output: &mut [u8]) -> Result<usize, Refusal> {
    lasso::translate(table, output).map_err(refusal)
}

pub fn step(table: &[u8], record: Record, next: usize, wish: bool) -> Result<Record, Refusal> {
    let Record { s, t, live, v } = record;
    let moved = lasso::step(table, lasso::Record { s, t, live, v }, next, wish).map_err(refusal)?;
    Ok(Record {
        s: moved.s,
        t: moved.t,
        live: moved.live,
        v: moved.v,
    })
}
