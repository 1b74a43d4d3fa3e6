//! What the library says of a table: its quote and its least lasso. Reads docs/RULES.md, "Lasso and choice" and "Quote sheet".
use lasso::{Found, Refusal, Sheet};

/// The states at places 0 to k; the last leads back to place `l`.
#[derive(Clone, Debug, PartialEq, Eq)]
pub struct Lasso {
    pub run: Vec<usize>,
    pub l: usize,
}

/// No lasso means that the goal holds.
#[derive(Clone, Debug, PartialEq, Eq)]
pub struct Answer {
    pub sheet: Sheet,
    pub lasso: Option<Lasso>,
}

/// The buffers are as long as the quote says that the search needs, so only the table itself can be refused.
pub fn answer(table: &[u8]) -> Result<Answer, Refusal> {
    let sheet = lasso::quote(table)?;
    let mut workspace = vec![0; 2 * sheet.slots];
    let mut report = vec![0; sheet.slots];
    let lasso = match lasso::search(table, &mut workspace, &mut report)? {
        Found::Holds => None,
        Found::Lasso { k, l } => Some(Lasso {
            run: report[..=k].iter().map(|state| *state as usize).collect(),
            l,
        }),
    };
    Ok(Answer { sheet, lasso })
}
