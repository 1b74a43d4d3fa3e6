//! Successors of the text form to state numbers, once all states are known. Reads docs/RULES.md, "The table file": targets rise strictly within a
//! row, and e is at most 1,024.
use crate::lines::Error;
use crate::rules::MOST_EDGES;
use crate::state_line::StateLine;
use crate::words::{number_of, quoted};
use std::collections::HashMap;

/// The rows of all states, each rising.
pub fn rows(states: &[StateLine]) -> Result<Vec<Vec<usize>>, Error> {
    let numbered = states.iter().enumerate().filter_map(|(number, state)| Some((state.name?, number)));
    let numbers: HashMap<&str, usize> = numbered.collect();
    let mut rows = Vec::new();
    let mut edges = 0;
    for state in states {
        let row = row_of(state, &numbers, states.len())?;
        edges += row.len();
        if edges > MOST_EDGES {
            return Err(state
                .line
                .error(format!("{edges} edges up to this line"), format!("at most {MOST_EDGES}")));
        }
        rows.push(row);
    }
    Ok(rows)
}

fn row_of(state: &StateLine, numbers: &HashMap<&str, usize>, states: usize) -> Result<Vec<usize>, Error> {
    let mut row = Vec::new();
    for word in state.row {
        let successor = match number_of(word) {
            Some(number) => Some(number).filter(|number| *number < states),
            None => numbers.get(word).copied(),
        };
        let Some(successor) = successor else {
            return Err(state.line.error(
                format!("the unknown state {}", quoted(word)),
                format!("a state's name or a number below {states}"),
            ));
        };
        if row.contains(&successor) {
            return Err(state.line.error(
                format!("the successor {} (number {successor}) twice", quoted(word)),
                "each successor once",
            ));
        }
        row.push(successor);
    }
    row.sort_unstable();
    Ok(row)
}
