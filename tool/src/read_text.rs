//! The text form to a table's content. Reads docs/RULES.md, "The table file": the limits on states, edges and sets.
//!
//! The first error is given: those of the lines in order, then those of the successors in order, for a successor may be a state of a later line.
use crate::content::{Content, State};
pub use crate::lines::Error;
use crate::lines::{line_at, lines, Line};
use crate::rows::rows;
use crate::rules::MOST_STATES;
use crate::sets_line::{sets_line, Sets};
use crate::state_line::{state_line, StateLine};
use crate::words::{quoted, SETS, STATE};

pub fn read_text(bytes: &[u8]) -> Result<Content, Error> {
    let lines = lines(bytes)?;
    let mut reader = Reader {
        sets: None,
        states: Vec::new(),
    };
    for line in &lines {
        match line.words[0] {
            SETS => reader.take_sets(line)?,
            STATE => reader.take_state(line)?,
            word => return Err(line.error(quoted(word), "\"sets\" or \"state\"")),
        }
    }
    if reader.states.is_empty() {
        return Err(Error::new(line_at(bytes, bytes.len()), "the end of the text", "a \"state\" line"));
    }
    reader.content()
}

struct Reader<'a> {
    sets: Option<Sets>,
    states: Vec<StateLine<'a>>,
}

impl<'a> Reader<'a> {
    fn take_sets(&mut self, line: &Line) -> Result<(), Error> {
        if self.sets.is_some() {
            return Err(line.error("a second \"sets\" line", "one"));
        }
        if !self.states.is_empty() {
            return Err(line.error("\"sets\" after a state", "it before the states"));
        }
        self.sets = Some(sets_line(line)?);
        Ok(())
    }

    fn take_state(&mut self, line: &'a Line<'a>) -> Result<(), Error> {
        if self.states.len() == MOST_STATES {
            return Err(line.error(format!("{} states", MOST_STATES + 1), format!("at most {MOST_STATES}")));
        }
        let none = Sets::new();
        let state = state_line(line, self.states.len(), self.sets.as_ref().unwrap_or(&none))?;
        self.check_new_name(&state)?;
        self.states.push(state);
        Ok(())
    }

    fn check_new_name(&self, state: &StateLine) -> Result<(), Error> {
        let Some(name) = state.name else {
            return Ok(());
        };
        match self.states.iter().find(|other| other.name == Some(name)) {
            None => Ok(()),
            Some(first) => {
                let expected = format!("a name that line {} does not have", first.line.number);
                Err(state.line.error(format!("the state name {} again", quoted(name)), expected))
            }
        }
    }

    fn content(self) -> Result<Content, Error> {
        let rows = rows(&self.states)?;
        let states = self.states.into_iter().zip(rows).map(|(state, row)| State {
            name: state.name.map(str::to_string),
            start: state.marks.start,
            goal: state.marks.goal,
            sets: state.marks.sets,
            row,
        });
        Ok(Content {
            states: states.collect(),
            sets: self.sets.unwrap_or_default(),
        })
    }
}

#[cfg(test)]
mod tests {
    use super::*;
    use crate::write_text::write_text;

    fn canonical(text: &str) -> String {
        write_text(&read_text(text.as_bytes()).unwrap())
    }

    #[test]
    fn spellings_that_are_the_same() {
        let text = "sets 2\nstate 0 start goal in 0 1 -> 0 1\nstate 1 -> 0\n";
        for same in [
            "sets x y\r\n\r\nstate a in y x goal start -> b a\r\nstate b -> a\r\n",
            "sets 2\nstate 0 start in 1 0 goal -> 01 0#\n\tstate\t1\t->\t0",
            "sets x y # z\nstate a goal in 0 y start -> 1 a\nstate 1 -> a",
        ] {
            assert_eq!(canonical(same), text, "{same}");
        }
    }

    #[test]
    fn no_sets_line_and_a_count_of_0_are_the_same() {
        assert_eq!(canonical("sets 0\nstate 0 -> 0"), "state 0 -> 0\n");
        assert_eq!(canonical("state 0 -> 0"), "state 0 -> 0\n");
    }

    #[test]
    fn names_are_kept() {
        let content = read_text(b"sets x y\nstate a -> 1\nstate 1 -> a").unwrap();
        assert_eq!(content.sets, [Some("x".to_string()), Some("y".to_string())]);
        let names: Vec<Option<&str>> = content.states.iter().map(|state| state.name.as_deref()).collect();
        assert_eq!(names, [Some("a"), None]);
    }
}
