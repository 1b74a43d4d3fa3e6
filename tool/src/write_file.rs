//! A table file's bytes from its content. Reads docs/RULES.md, "The table file".
use crate::content::{Content, State};
use crate::rules::{set_bit, Layout, GOAL_BIT, KIND, START_BIT};

pub fn write_file(content: &Content) -> Vec<u8> {
    let (states, edges) = (content.states.len(), content.edges());
    let layout = Layout::of(states, edges);
    let mut bytes = Vec::with_capacity(layout.length);
    push_word(&mut bytes, KIND as usize);
    for number in [states, edges, content.sets.len(), layout.row_starts, layout.targets, layout.marks] {
        push_word(&mut bytes, number);
    }
    push_row_starts(&mut bytes, content);
    for target in content.states.iter().flat_map(|state| &state.row) {
        push_word(&mut bytes, *target);
    }
    bytes.extend(content.states.iter().map(mark_of));
    bytes
}

fn push_row_starts(bytes: &mut Vec<u8>, content: &Content) {
    let mut next = 0;
    push_word(bytes, next);
    for state in &content.states {
        next += state.row.len();
        push_word(bytes, next);
    }
}

/// Every number of a table is at most the file's length, so it has room in a word.
fn push_word(bytes: &mut Vec<u8>, number: usize) {
    bytes.extend((number as u32).to_le_bytes());
}

fn mark_of(state: &State) -> u8 {
    let start = if state.start { START_BIT } else { 0 };
    let goal = if state.goal { GOAL_BIT } else { 0 };
    state.sets.iter().fold(start | goal, |mark, set| mark | set_bit(*set))
}

#[cfg(test)]
mod tests {
    use super::*;

    #[test]
    fn one_state_with_every_mark() {
        let state = State {
            name: None,
            start: true,
            goal: true,
            sets: vec![0, 2],
            row: vec![0],
        };
        let bytes = write_file(&Content {
            sets: vec![None; 3],
            states: vec![state],
        });
        let words = [1u32, 1, 1, 3, 28, 36, 40, 0, 1, 0];
        let mut expected: Vec<u8> = words.iter().flat_map(|word| word.to_le_bytes()).collect();
        expected.push(0b01_0111);
        assert_eq!(bytes, expected);
    }
}
