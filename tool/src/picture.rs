//! The Graphviz text of a table, with its least lasso drawn in. Reads docs/RULES.md, "Lasso and choice" and "Quote sheet".
//!
//! A state's id is its number. All text that comes from a name is quoted; the other values are words of Graphviz.
use crate::answer::{Answer, Lasso};
use crate::content::{Content, State};
use crate::rules::BOARDS;

const STEM_COLOUR: &str = "blue";
const LOOP_COLOUR: &str = "red";

pub fn picture(content: &Content, answer: &Answer) -> String {
    let lasso = answer.lasso.as_ref();
    let caption = [
        ("label", quoted(&caption_of(answer))),
        ("labelloc", "b".to_string()),
        ("rankdir", "LR".to_string()),
    ];
    let mut lines = vec![format!("graph{};", attributes(&caption))];
    for (number, state) in content.states.iter().enumerate() {
        lines.extend(state_lines(number, state, content, lasso));
    }
    for (from, state) in content.states.iter().enumerate() {
        lines.extend(state.row.iter().map(|to| edge_line(from, *to, lasso)));
    }
    let body: String = lines.iter().map(|line| format!("  {line}\n")).collect();
    format!("digraph {} {{\n{body}}}\n", quoted("table"))
}

fn caption_of(answer: &Answer) -> String {
    let sheet = &answer.sheet;
    let quote = format!("board {}, S {}, E {}", BOARDS[sheet.board], sheet.slots, sheet.edges);
    match &answer.lasso {
        None => format!("{quote}\nthe goal holds: there is no lasso"),
        Some(lasso) => format!(
            "{quote}\nlasso k {}, l {}: stem {STEM_COLOUR}, loop {LOOP_COLOUR} and bold",
            lasso.run.len() - 1,
            lasso.l
        ),
    }
}

/// The state; for a start also the point that its arrow comes from.
fn state_lines(number: usize, state: &State, content: &Content, lasso: Option<&Lasso>) -> Vec<String> {
    let id = quoted(&number.to_string());
    let mut list = vec![("label", quoted(&label_of(number, state, content)))];
    if state.goal {
        list.push(("peripheries", "2".to_string()));
    }
    if let Some(colour) = lasso.and_then(|lasso| state_colour(number, lasso)) {
        list.push(("color", colour.to_string()));
    }
    let mut lines = vec![format!("{id}{};", attributes(&list))];
    if state.start {
        let point = quoted(&format!("start {number}"));
        lines.push(format!("{point}{};", attributes(&[("shape", "point".to_string())])));
        lines.push(format!("{point} -> {id};"));
    }
    lines
}

/// Number and name, and below them the sets of which the state is a member.
fn label_of(number: usize, state: &State, content: &Content) -> String {
    let first = match &state.name {
        Some(name) => format!("{number} {name}"),
        None => number.to_string(),
    };
    if state.sets.is_empty() {
        return first;
    }
    let names = state.sets.iter().map(|set| content.sets[*set].clone().unwrap_or_else(|| set.to_string()));
    format!("{first}\nin {}", names.collect::<Vec<_>>().join(" "))
}

fn state_colour(number: usize, lasso: &Lasso) -> Option<&'static str> {
    let (stem, round) = lasso.run.split_at(lasso.l);
    if round.contains(&number) {
        Some(LOOP_COLOUR)
    } else if stem.contains(&number) {
        Some(STEM_COLOUR)
    } else {
        None
    }
}

/// An edge of the lasso bears the places that it leads from and to. With fairness sets the loop may take an edge more than once.
fn edge_line(from: usize, to: usize, lasso: Option<&Lasso>) -> String {
    let taken: Vec<(usize, usize)> = lasso.map_or(Vec::new(), |lasso| places_of(from, to, lasso));
    let mut list = Vec::new();
    if let (Some(lasso), false) = (lasso, taken.is_empty()) {
        let places: Vec<String> = taken.iter().map(|(place, next)| format!("{place} to {next}")).collect();
        list.push(("label", quoted(&places.join("\n"))));
        let in_loop = taken.iter().any(|(place, _)| *place >= lasso.l);
        list.push(("color", if in_loop { LOOP_COLOUR } else { STEM_COLOUR }.to_string()));
        if in_loop {
            list.push(("style", "bold".to_string()));
        }
    }
    format!("{} -> {}{};", quoted(&from.to_string()), quoted(&to.to_string()), attributes(&list))
}

/// The pairs of places between which the lasso takes this edge. After the last place comes place l.
fn places_of(from: usize, to: usize, lasso: &Lasso) -> Vec<(usize, usize)> {
    let last = lasso.run.len() - 1;
    let pairs = (0..=last).map(|place| (place, if place == last { lasso.l } else { place + 1 }));
    pairs
        .filter(|(place, next)| lasso.run[*place] == from && lasso.run[*next] == to)
        .collect()
}

fn attributes(list: &[(&str, String)]) -> String {
    if list.is_empty() {
        return String::new();
    }
    let written: Vec<String> = list.iter().map(|(name, value)| format!("{name}={value}")).collect();
    format!(" [{}]", written.join(", "))
}

/// A quoted id of Graphviz. A backslash is doubled, for in a label it begins an escape; a line end becomes the escape of a centred line.
fn quoted(text: &str) -> String {
    let escaped = text.replace('\\', "\\\\").replace('"', "\\\"").replace('\n', "\\n");
    format!("\"{escaped}\"")
}

#[cfg(test)]
mod tests {
    use super::*;

    #[test]
    fn quotes_backslashes_and_line_ends_are_escaped() {
        assert_eq!(quoted("a\"b\\c\nd"), r#""a\"b\\c\nd""#);
    }

    /// 0 to 1, then round 1 2 1 3: the loop takes no edge twice but state 1 twice.
    fn figure_eight() -> Lasso {
        Lasso {
            run: vec![0, 1, 2, 1, 3],
            l: 1,
        }
    }

    #[test]
    fn edges_of_stem_and_loop() {
        let lasso = figure_eight();
        assert_eq!(edge_line(0, 1, Some(&lasso)), r#""0" -> "1" [label="0 to 1", color=blue];"#);
        assert_eq!(edge_line(1, 2, Some(&lasso)), r#""1" -> "2" [label="1 to 2", color=red, style=bold];"#);
        assert_eq!(edge_line(3, 1, Some(&lasso)), r#""3" -> "1" [label="4 to 1", color=red, style=bold];"#);
        assert_eq!(edge_line(0, 2, Some(&lasso)), r#""0" -> "2";"#);
        assert_eq!(edge_line(0, 1, None), r#""0" -> "1";"#);
    }

    #[test]
    fn an_edge_taken_twice_bears_both_pairs() {
        let lasso = Lasso {
            run: vec![0, 1, 0, 1, 2],
            l: 0,
        };
        assert_eq!(
            edge_line(0, 1, Some(&lasso)),
            r#""0" -> "1" [label="0 to 1\n2 to 3", color=red, style=bold];"#
        );
    }

    #[test]
    fn states_of_stem_and_loop() {
        let lasso = figure_eight();
        assert_eq!(state_colour(0, &lasso), Some("blue"));
        assert_eq!(state_colour(3, &lasso), Some("red"));
        assert_eq!(state_colour(4, &lasso), None);
    }
}
