//! One `state` line of the text form: number or name, marks, arrow, successors. Reads docs/RULES.md, "The table file": marks, and no row is empty.
use crate::lines::{Error, Line};
use crate::sets_line::{members_of, Sets};
use crate::words::{number_of, quoted, why_no_name, ARROW, GOAL, IN, START};

/// A state whose successors are still words: they may name states of later lines.
pub struct StateLine<'a> {
    pub line: &'a Line<'a>,
    pub name: Option<&'a str>,
    pub marks: Marks,
    pub row: &'a [&'a str],
}

/// `sets` are those of which the state is a member, rising.
#[derive(Default)]
pub struct Marks {
    pub start: bool,
    pub goal: bool,
    pub sets: Vec<usize>,
}

/// Reads the line of the state that has this number by the order of the lines.
pub fn state_line<'a>(line: &'a Line<'a>, number: usize, sets: &Sets) -> Result<StateLine<'a>, Error> {
    let Some(word) = line.words.get(1).filter(|word| **word != ARROW) else {
        return Err(line.error("no word after \"state\"", "the state's number or name"));
    };
    let name = name_of(line, word, number)?;
    let Some(arrow) = line.words.iter().position(|word| *word == ARROW) else {
        return Err(line.error("no \"->\"", "\"->\", with blanks around it, before the successors"));
    };
    let marks = marks_of(line, &line.words[2..arrow], sets)?;
    let row = &line.words[arrow + 1..];
    if row.is_empty() {
        return Err(line.error("nothing after \"->\"", "one or more successors"));
    }
    if row.contains(&ARROW) {
        return Err(line.error("a second \"->\"", "one in a line"));
    }
    Ok(StateLine { line, name, marks, row })
}

/// A number that is written must be the state's own, and is no name.
fn name_of<'a>(line: &Line, word: &'a str, number: usize) -> Result<Option<&'a str>, Error> {
    match number_of(word) {
        Some(written) if written == number => Ok(None),
        Some(_) => Err(line.error(
            format!("the state number {}", quoted(word)),
            format!("{number}, for states are numbered in the order of their lines"),
        )),
        None => match why_no_name(word) {
            Some(expected) => Err(line.error(format!("the state name {}", quoted(word)), format!("the number {number} or {expected}"))),
            None => Ok(Some(word)),
        },
    }
}

fn marks_of(line: &Line, words: &[&str], sets: &Sets) -> Result<Marks, Error> {
    let mut marks = Marks::default();
    let mut rest = words;
    while let Some((word, after)) = rest.split_first() {
        rest = after;
        let twice = match *word {
            START => std::mem::replace(&mut marks.start, true),
            GOAL => std::mem::replace(&mut marks.goal, true),
            IN => {
                let length = rest.iter().position(|word| [START, GOAL, IN].contains(word)).unwrap_or(rest.len());
                let (listed, after) = rest.split_at(length);
                rest = after;
                let members = members_of(line, listed, sets)?;
                !std::mem::replace(&mut marks.sets, members).is_empty()
            }
            _ => return Err(line.error(quoted(word), "\"start\", \"goal\", \"in\" or \"->\"")),
        };
        if twice {
            return Err(line.error(format!("{} twice", quoted(word)), "it once"));
        }
    }
    Ok(marks)
}
