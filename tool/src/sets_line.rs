//! The `sets` line of the text form, a count or names; and the sets that a state's line names. Reads docs/RULES.md, "The table file": m is 0 to 4.
use crate::lines::{Error, Line};
use crate::rules::MOST_SETS;
use crate::words::{number_of, quoted, why_no_name};

/// The sets in the order of their numbers, with the names of those that have one.
pub type Sets = Vec<Option<String>>;

pub fn sets_line(line: &Line) -> Result<Sets, Error> {
    let words = &line.words[1..];
    match words {
        [] => Err(line.error("nothing after \"sets\"", "a count or names")),
        [word] => match number_of(word) {
            Some(count) if count > MOST_SETS => Err(line.error(format!("the count {}", quoted(word)), format!("at most {MOST_SETS} sets"))),
            Some(count) => Ok(vec![None; count]),
            None => named(line, words),
        },
        _ => named(line, words),
    }
}

fn named(line: &Line, names: &[&str]) -> Result<Sets, Error> {
    if names.len() > MOST_SETS {
        return Err(line.error(format!("{} names", names.len()), format!("at most {MOST_SETS} sets")));
    }
    for (index, name) in names.iter().enumerate() {
        if let Some(expected) = why_no_name(name) {
            return Err(line.error(format!("the set name {}", quoted(name)), expected));
        }
        if names[..index].contains(name) {
            return Err(line.error(format!("the set name {} twice", quoted(name)), "each name once"));
        }
    }
    Ok(names.iter().map(|name| Some(name.to_string())).collect())
}

/// The numbers, rising, of the sets that stand after `in`.
pub fn members_of(line: &Line, words: &[&str], sets: &Sets) -> Result<Vec<usize>, Error> {
    let mut numbers = Vec::new();
    for word in words {
        let set = set_of(line, word, sets)?;
        if numbers.contains(&set) {
            return Err(line.error(format!("the set {} (number {set}) twice", quoted(word)), "each set once"));
        }
        numbers.push(set);
    }
    if numbers.is_empty() {
        return Err(line.error("nothing after \"in\"", "one or more sets"));
    }
    numbers.sort_unstable();
    Ok(numbers)
}

fn set_of(line: &Line, word: &str, sets: &Sets) -> Result<usize, Error> {
    let set = match number_of(word) {
        Some(number) => Some(number).filter(|number| *number < sets.len()),
        None => sets.iter().position(|name| name.as_deref() == Some(word)),
    };
    let expected = match sets.len() {
        0 => "no set, for the table has none".to_string(),
        count => format!("a set's name or a number below {count}"),
    };
    set.ok_or_else(|| line.error(format!("the unknown set {}", quoted(word)), expected))
}
