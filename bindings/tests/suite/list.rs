//! The refusal list of the wrappers and that of the header: the same numbers, names, words and places in the same order.
use crate::header::{self, Constant};
use lasso::{Place, Refusal, NO_LINE, REFUSALS};

/// The numbers of `lasso::number`, as they stand in its text.
fn numbers() -> Vec<Constant> {
    let source = include_str!("../../src/number.rs");
    let said = source.lines().filter_map(|line| line.strip_prefix("pub const "));
    said.map(|said| said.split_once(": u32 = ").expect("a name and a number"))
        .map(|(name, number)| (name.to_string(), header::number(number.trim_end_matches(';'))))
        .collect()
}

fn name_of(number: u32) -> String {
    let found = numbers().into_iter().find(|(_, found)| *found == number as usize);
    found.expect("the number has a name").0
}

#[test]
fn the_numbers_are_those_of_the_header() {
    let mut listed = header::enum_with("DONE");
    assert_eq!(listed.remove(0), ("DONE".to_string(), 0));
    assert_eq!(numbers(), listed);
    let in_order: Vec<usize> = REFUSALS.iter().map(|line| line.number as usize).collect();
    assert_eq!(in_order, listed.iter().map(|(_, number)| *number).collect::<Vec<_>>());
}

#[test]
fn the_words_are_those_of_the_header() {
    let (given, other) = header::texts("lasso_words");
    let listed: Vec<_> = REFUSALS.iter().map(|line| (name_of(line.number), line.words.to_string())).collect();
    assert_eq!(given, listed);
    assert_eq!(other, NO_LINE);
}

#[test]
fn the_places_are_those_of_the_header() {
    let (given, other) = header::texts("lasso_place_words");
    let named = REFUSALS.iter().filter(|line| line.place != Place::Unnamed);
    let listed: Vec<_> = named.map(|line| (name_of(line.number), line.place.words().to_string())).collect();
    assert_eq!(given, listed);
    assert_eq!(other, Place::Unnamed.words());
}

#[test]
fn a_number_finds_its_own_line() {
    for line in REFUSALS {
        let number = line.number;
        assert_eq!(Refusal { number, place: 0 }.line(), Some(line), "{number}: is it there twice?");
    }
    let most = REFUSALS.iter().map(|line| line.number).max().expect("there are lines");
    for number in [0, most + 1, u32::MAX] {
        assert_eq!(Refusal { number, place: 0 }.line(), None, "{number}");
    }
}
