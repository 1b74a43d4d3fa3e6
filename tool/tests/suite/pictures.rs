//! The pictures: every state and every edge once, the marks, the lasso drawn in, the caption.
use crate::command::text_of;
use crate::dot::{read, Attributes, Graph};
use crate::plain::Plain;
use crate::random::Random;
use crate::samples::{bytes, names, path};
use lasso::{Found, Sheet};
use std::collections::BTreeMap;
use table::answer::answer;
use table::picture::picture;
use table::read_file::read_file;

#[test]
fn the_picture_of_one_example_is_as_expected() {
    let expected = include_str!("../expected/starving-arbiter.dot");
    assert_eq!(text_of(&["picture", &path("starving-arbiter", "txt")], b""), expected);
}

#[test]
fn pictures_of_the_examples() {
    for name in names() {
        let table = bytes(&name, "table");
        let of_file = text_of(&["picture", &path(&name, "table")], b"");
        let of_text = text_of(&["picture", &path(&name, "txt")], b"");
        check(&of_file, &table);
        check(&of_text, &table);
        assert_eq!(text_of(&["picture", "-"], &table), of_file, "{name} on standard input");
    }
}

#[test]
fn pictures_of_random_tables() {
    let mut random = Random::new(4);
    let (mut lassos, mut held) = (0, 0);
    for _ in 0..300 {
        let table = random.table().bytes();
        check(&picture(&read_file(&table).unwrap(), &answer(&table).unwrap()), &table);
        match said(&table).1 {
            Some(_) => lassos += 1,
            None => held += 1,
        }
    }
    assert!(lassos > 100 && held > 100, "{lassos} lassos, {held} hold");
}

/// From 1 the loop must go to 2 and to 3, so it takes 0 to 1 twice.
#[test]
fn an_edge_taken_twice_bears_both_pairs_of_places() {
    let table = Plain {
        sets: 2,
        marks: vec![1, 0, 4, 8],
        rows: vec![vec![1], vec![2, 3], vec![0], vec![0]],
    }
    .bytes();
    let text = text_of(&["picture", "-"], &table);
    check(&text, &table);
    let graph = read(&text).unwrap();
    let edge = graph.edges.iter().find(|(from, to, _)| from == "0" && to == "1").unwrap();
    assert_eq!(edge.2["label"], "0 to 1\n3 to 4");
}

#[test]
fn names_of_states_and_sets_are_in_the_labels() {
    let graph = read(&text_of(&["picture", &path("bridge", "txt")], b"")).unwrap();
    let label = |id: &str| graph.states.iter().find(|(found, _)| found == id).unwrap().1["label"].clone();
    assert_eq!(label("0"), "0 reset");
    assert_eq!(label("5"), "5 stuck.back\nin back");
}

#[test]
fn the_caption_says_that_the_goal_holds() {
    let caption = |name: &str| read(&text_of(&["picture", &path(name, "table")], b"")).unwrap().attributes["label"].clone();
    assert_eq!(caption("b"), "board A, S 40, E 48\nthe goal holds: there is no lasso");
    assert_eq!(caption("i"), "board A, S 40, E 60\nlasso k 2, l 0: stem blue, loop red and bold");
    assert_eq!(caption("fair-arbiter"), "board D, S 2176, E 6048\nthe goal holds: there is no lasso");
}

/// The quote, and the run with its loop place.
fn said(table: &[u8]) -> (Sheet, Option<(Vec<usize>, usize)>) {
    let sheet = lasso::quote(table).unwrap();
    let mut report = vec![0; sheet.slots];
    match lasso::search(table, &mut vec![0; 2 * sheet.slots], &mut report).unwrap() {
        Found::Holds => (sheet, None),
        Found::Lasso { k, l } => (sheet, Some((report[..=k].iter().map(|state| *state as usize).collect(), l))),
    }
}

/// The places from which the lasso takes each of its edges.
fn steps(run: &[usize], l: usize) -> BTreeMap<(usize, usize), Vec<usize>> {
    let mut steps = BTreeMap::new();
    for (place, state) in run.iter().enumerate() {
        let next = *run.get(place + 1).unwrap_or(&run[l]);
        steps.entry((*state, next)).or_insert(Vec::new()).push(place);
    }
    steps
}

fn check(text: &str, table: &[u8]) {
    let graph = read(text).unwrap_or_else(|error| panic!("{error}\n{text}"));
    let plain = Plain::from_bytes(table);
    let (sheet, lasso) = said(table);
    check_states(&graph, &plain, &lasso);
    check_edges(&graph, &plain, &lasso);
    let caption = &graph.attributes["label"];
    let board = ["A", "B", "C", "D", "E", "F", "G", "H", "none"][sheet.board];
    assert!(
        caption.starts_with(&format!("board {board}, S {}, E {}\n", sheet.slots, sheet.edges)),
        "{caption}"
    );
    assert_eq!(caption.contains("the goal holds"), lasso.is_none(), "{caption}");
}

/// Each state once, and a point for each start.
fn check_states(graph: &Graph, plain: &Plain, lasso: &Option<(Vec<usize>, usize)>) {
    let numbers = 0..plain.rows.len();
    let mut ids: Vec<&String> = graph.states.iter().map(|(id, _)| id).collect();
    let points = numbers.clone().filter(|state| plain.starts(*state)).map(|state| format!("start {state}"));
    let mut expected: Vec<String> = numbers.map(|state| state.to_string()).chain(points).collect();
    ids.sort();
    expected.sort();
    assert_eq!(ids, expected.iter().collect::<Vec<_>>());
    for (id, attributes) in &graph.states {
        match id.parse::<usize>() {
            Ok(state) => check_state(state, attributes, plain, lasso),
            Err(_) => assert_eq!(attributes.get("shape").map(String::as_str), Some("point"), "{id}"),
        }
    }
}

fn check_state(state: usize, attributes: &Attributes, plain: &Plain, lasso: &Option<(Vec<usize>, usize)>) {
    let doubled = attributes.get("peripheries").map(String::as_str);
    assert_eq!(doubled, plain.goal(state).then_some("2"), "state {state}");
    let label = &attributes["label"];
    let (first, members) = label.split_once("\nin ").unwrap_or((label, ""));
    assert_eq!(first.split(' ').next(), Some(state.to_string().as_str()), "{label}");
    assert_eq!(members.split_whitespace().count(), plain.members(state).len(), "{label}");
    let colour = lasso.as_ref().and_then(|(run, l)| {
        let place = run.iter().position(|other| *other == state)?;
        Some(if place < *l { "blue" } else { "red" })
    });
    assert_eq!(attributes.get("color").map(String::as_str), colour, "state {state}");
}

/// Each edge once, and an arrow to each start; the lasso's edges and no others bear their places.
fn check_edges(graph: &Graph, plain: &Plain, lasso: &Option<(Vec<usize>, usize)>) {
    let (of_states, arrows): (Vec<_>, Vec<_>) = graph.edges.iter().partition(|(from, _, _)| from.parse::<usize>().is_ok());
    let mut found: Vec<(usize, usize)> = of_states
        .iter()
        .map(|(from, to, _)| (from.parse().unwrap(), to.parse().unwrap()))
        .collect();
    found.sort_unstable();
    assert_eq!(found, plain.edges());
    let arrows: Vec<(&str, &str)> = arrows.iter().map(|(from, to, _)| (from.as_str(), to.as_str())).collect();
    let starts: Vec<String> = (0..plain.rows.len())
        .filter(|state| plain.starts(*state))
        .map(|state| state.to_string())
        .collect();
    let points: Vec<String> = starts.iter().map(|state| format!("start {state}")).collect();
    assert_eq!(
        arrows,
        points
            .iter()
            .map(String::as_str)
            .zip(starts.iter().map(String::as_str))
            .collect::<Vec<_>>()
    );
    let steps = lasso.as_ref().map_or(BTreeMap::new(), |(run, l)| steps(run, *l));
    for (from, to, attributes) in of_states {
        let edge = (from.parse().unwrap(), to.parse().unwrap());
        assert_eq!(*attributes, expected_of(steps.get(&edge), lasso), "{edge:?}");
    }
}

fn expected_of(places: Option<&Vec<usize>>, lasso: &Option<(Vec<usize>, usize)>) -> Attributes {
    let (Some(places), Some((run, l))) = (places, lasso) else {
        return Attributes::new();
    };
    let next = |place: usize| if place + 1 == run.len() { *l } else { place + 1 };
    let label = places
        .iter()
        .map(|place| format!("{place} to {}", next(*place)))
        .collect::<Vec<_>>()
        .join("\n");
    let list: &[(&str, &str)] = if places[0] < *l {
        &[("color", "blue")]
    } else {
        &[("color", "red"), ("style", "bold")]
    };
    let pairs = list.iter().map(|(name, value)| (name.to_string(), value.to_string()));
    pairs.chain([("label".to_string(), label)]).collect()
}
