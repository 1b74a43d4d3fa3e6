//! What a table says, apart from how it is written. Reads docs/RULES.md, "The table file". Names come from the text form only: a file has none.

/// A state's marks and row. `sets` are those of which the state is a member; `sets` and `row` rise strictly.
#[derive(Clone, Debug, PartialEq, Eq)]
pub struct State {
    pub name: Option<String>,
    pub start: bool,
    pub goal: bool,
    pub sets: Vec<usize>,
    pub row: Vec<usize>,
}

/// The states in the order of their numbers, and the name of each set that has one.
#[derive(Clone, Debug, PartialEq, Eq)]
pub struct Content {
    pub sets: Vec<Option<String>>,
    pub states: Vec<State>,
}

impl Content {
    pub fn edges(&self) -> usize {
        self.states.iter().map(|state| state.row.len()).sum()
    }
}
