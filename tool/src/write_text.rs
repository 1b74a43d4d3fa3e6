//! The canonical text of a table: numbers only, one line a state, all lists rising. Reads docs/RULES.md, "The table file".
use crate::content::{Content, State};
use crate::words::{ARROW, GOAL, IN, SETS, START, STATE};

pub fn write_text(content: &Content) -> String {
    let sets = content.sets.len();
    let first = if sets == 0 { String::new() } else { format!("{SETS} {sets}\n") };
    let lines = content.states.iter().enumerate().map(|(number, state)| line_of(number, state));
    lines.fold(first, |text, line| text + &line + "\n")
}

fn line_of(number: usize, state: &State) -> String {
    let mut words = vec![STATE.to_string(), number.to_string()];
    if state.start {
        words.push(START.to_string());
    }
    if state.goal {
        words.push(GOAL.to_string());
    }
    if !state.sets.is_empty() {
        words.push(IN.to_string());
        words.extend(state.sets.iter().map(usize::to_string));
    }
    words.push(ARROW.to_string());
    words.extend(state.row.iter().map(usize::to_string));
    words.join(" ")
}

#[cfg(test)]
mod tests {
    use super::*;

    #[test]
    fn marks_stand_in_one_order_and_names_are_left_out() {
        let plain = State {
            name: None,
            start: false,
            goal: false,
            sets: vec![],
            row: vec![0, 1],
        };
        let full = State {
            name: Some("x".to_string()),
            start: true,
            goal: true,
            sets: vec![0, 1],
            row: vec![0],
        };
        let content = Content {
            sets: vec![Some("y".to_string()), None],
            states: vec![plain.clone(), full],
        };
        assert_eq!(write_text(&content), "sets 2\nstate 0 -> 0 1\nstate 1 start goal in 0 1 -> 0\n");
        let content = Content {
            sets: vec![],
            states: vec![plain],
        };
        assert_eq!(write_text(&content), "state 0 -> 0 1\n");
    }
}
