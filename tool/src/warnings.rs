//! What a client should hear of an accepted table beside its verdict: mostly reasons for which "holds" says nothing of the block. Reads
//! docs/RULES.md, "The table file": no start, no goal and an empty set are allowed. Every row has an edge there, so whatever a start reaches leads on to a loop;
//! that no loop can be reached is the same as that there is no start.
use crate::content::Content;
use crate::words::cut;

/// States that a warning lists; of more it gives the count.
const LISTED: usize = 8;

pub fn warnings(content: &Content) -> Vec<String> {
    let mut found = Vec::new();
    let starts = content.states.iter().any(|state| state.start);
    if !starts {
        found.push("no state is a start: there is no run, so the goal holds whatever the edges are".to_string());
    }
    if !content.states.iter().any(|state| state.goal) {
        found.push("no state has the goal: every fair loop that a start reaches is a hang".to_string());
    }
    found.extend(empty_sets(content));
    if starts {
        found.extend(out_of_reach(content));
    }
    found
}

fn empty_sets(content: &Content) -> Vec<String> {
    let empty = |set: &usize| !content.states.iter().any(|state| state.sets.contains(set));
    let numbers = (0..content.sets.len()).filter(empty);
    let names = numbers.map(|set| named(set, &content.sets[set]));
    names
        .map(|name| format!("the set {name} has no member: no loop is fair, so the goal holds"))
        .collect()
}

fn out_of_reach(content: &Content) -> Option<String> {
    let reached = reached(content);
    let left: Vec<usize> = (0..reached.len()).filter(|state| !reached[*state]).collect();
    let listed: Vec<String> = left
        .iter()
        .take(LISTED)
        .map(|state| named(*state, &content.states[*state].name))
        .collect();
    let list = listed.join(" ");
    match left.len() {
        0 => None,
        1 => Some(format!("no start reaches the state {list}")),
        count if count <= LISTED => Some(format!("no start reaches the {count} states {list}")),
        count => Some(format!("no start reaches {count} states: {list} and {} more", count - LISTED)),
    }
}

/// Whether each state stands on a run from a start.
fn reached(content: &Content) -> Vec<bool> {
    let mut reached: Vec<bool> = content.states.iter().map(|state| state.start).collect();
    let mut open: Vec<usize> = (0..reached.len()).filter(|state| reached[*state]).collect();
    while let Some(state) = open.pop() {
        for next in &content.states[state].row {
            if !std::mem::replace(&mut reached[*next], true) {
                open.push(*next);
            }
        }
    }
    reached
}

/// The name of a state or a set, or its number where it has none.
fn named(number: usize, name: &Option<String>) -> String {
    name.as_ref().map_or(number.to_string(), |name| cut(name))
}
