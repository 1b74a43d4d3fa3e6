//! Counts how often each refusal, each of its reasons and places, each lasso length, each board and so on came up, and tells what came up too seldom.

use crate::independent::least::Least;
use crate::independent::quote::Quote;
use crate::independent::refusal::{Refused, PLAIN};
use crate::independent::table::Table;
use std::collections::BTreeMap;

/// Each thing required must come up so often.
pub const LEAST_COUNT: u64 = 10;
/// Lasso lengths up to this one are counted, and required, one by one.
const LAST_SINGLE_K: usize = 12;

/// The numbers of the refusal list, in the list's order.
const NUMBERS: [u32; 15] = [1, 2, 3, 14, 15, 4, 5, 6, 7, 8, 9, 10, 11, 12, 13];

/// Reasons that must each come up alone.
const REASONS: [(u32, &[&str]); 7] = [
    (3, &["n below 1", "n above 64"]),
    (14, &["e below 1", "e above 1024"]),
    (
        4,
        &[
            "offset of row starts",
            "offset of targets",
            "offset of marks",
            "length too short",
            "length too long",
        ],
    ),
    (5, &["first not 0", "below the one before", "above e", "last not e"]),
    (6, &["n or more", "equal to the one before", "below the one before"]),
    (8, &["bit 6", "bit 7", "a set not below m"]),
    (12, &["s not below n", "s' not below n", "t above n", "v not below 2^m"]),
];

/// Refusals that name a place, and where in the table it can be.
const PLACES: [(u32, &[&str]); 4] = [(5, &ENDS), (6, &ENDS), (7, &ENDS), (8, &ENDS)];
const ENDS: [&str; 3] = ["first", "middle", "last"];

/// Which counts of a header are outside their ranges at the same time.
const COUNTS: [&str; 7] = ["n", "e", "m", "n e", "n m", "e m", "n e m"];

const TABLES: [&str; 3] = ["no start", "all goal", "an empty set"];
const LASSOS: [&str; 5] = ["holds", "chosen among several", "through one state twice", "l is 0", "l above 0"];
const WALKS: [&str; 3] = ["bad at the end", "not bad at the end", "wished more than once"];

/// Lines that the programs must have had to print.
const VERDICT_LINES: [&str; 8] = [
    "lasso",
    "holds",
    "refused 9",
    "board none",
    "refused 3",
    "refused 14",
    "refused 15",
    "refused 4",
];
const TRANSLATE_LINES: [&str; 6] = ["no line", "refused 11", "refused 3", "refused 14", "refused 15", "refused 4"];

#[derive(Default)]
pub struct Tally {
    counts: BTreeMap<(&'static str, String), u64>,
    /// Whether the programs were run.
    programs: bool,
    /// Refusals by their place in `NUMBERS`. These come up by the million, so they do without a name.
    refused: [u64; NUMBERS.len()],
}

impl Tally {
    pub fn count(&mut self, group: &'static str, name: impl ToString) {
        *self.counts.entry((group, name.to_string())).or_default() += 1;
    }

    pub fn refused(&mut self, refused: Refused) {
        let number = refused.refusal.number;
        let line = NUMBERS.iter().position(|&listed| listed == number).expect("a number of the list");
        self.refused[line] += 1;
        if refused.reason != PLAIN {
            self.count("reason", format!("{} {}", refused.refusal.number, refused.reason));
        }
    }

    /// Where in its section the place of a refusal is: the section has the indices 0 to last.
    pub fn place(&mut self, refused: Refused, last: usize) {
        let place = refused.refusal.place;
        let end = ENDS[if place == 0 { 0 } else { 1 + usize::from(place == last) }];
        self.count("place", format!("{} {end}", refused.refusal.number));
    }

    /// Which of n, e and m are outside their ranges in a header that is refused for one of them.
    pub fn counts(&mut self, outside: [bool; 3]) {
        let names = ["n", "e", "m"].into_iter().zip(outside).filter(|(_, outside)| *outside);
        self.count("counts", names.map(|(name, _)| name).collect::<Vec<_>>().join(" "));
    }

    pub fn accepted(&mut self, table: &Table, quote: &Quote, least: Option<&Least>) {
        self.count("board", quote.board);
        self.count("sets", table.sets.len());
        let seen = [
            table.start.iter().all(|&start| !start),
            table.goal.iter().all(|&goal| goal),
            quote.members[..table.sets.len()].contains(&0),
        ];
        for (name, _) in TABLES.iter().zip(seen).filter(|(_, seen)| *seen) {
            self.count("table", name);
        }
        match least {
            None => self.count("lasso", LASSOS[0]),
            Some(least) => self.lasso(least),
        }
    }

    fn lasso(&mut self, least: &Least) {
        let states = &least.lasso.states;
        let twice = (1..states.len()).any(|i| states[..i].contains(&states[i]));
        let seen = [least.choices > 0, twice, least.lasso.l == 0, least.lasso.l > 0];
        for (name, _) in LASSOS[1..].iter().zip(seen).filter(|(_, seen)| *seen) {
            self.count("lasso", name);
        }
        self.count("k", length_name(states.len() - 1));
    }

    pub fn walk(&mut self, bad: bool, wished_twice: bool) {
        self.count("walk", WALKS[usize::from(!bad)]);
        if wished_twice {
            self.count("walk", WALKS[2]);
        }
    }

    /// What verdict had to print.
    pub fn verdict(&mut self, printed: &str) {
        self.programs = true;
        for begin in VERDICT_LINES {
            if printed.lines().any(|line| line.starts_with(begin)) {
                self.count("verdict", begin);
            }
        }
    }

    /// What translate had to write: a line, or a table, which begins with the kind.
    pub fn translate(&mut self, written: &[u8]) {
        self.programs = true;
        let name = TRANSLATE_LINES[1..].iter().find(|line| written.starts_with(line.as_bytes()));
        if name.is_some() || written[0] == 2 {
            self.count("written", name.unwrap_or(&TRANSLATE_LINES[0]));
        }
    }

    fn of(&self, group: &'static str, name: &str) -> u64 {
        self.counts.get(&(group, name.to_string())).copied().unwrap_or(0)
    }

    /// Everything that is required, with its count.
    fn required(&self) -> Vec<(&'static str, String, u64)> {
        let refusals = NUMBERS.iter().zip(self.refused);
        let refusals = refusals.map(|(number, count)| ("refused", number.to_string(), count));
        let named = required_names(self.programs).into_iter().map(|(group, name)| {
            let count = self.of(group, &name);
            (group, name, count)
        });
        refusals.chain(named).collect()
    }

    pub fn missing(&self) -> Vec<String> {
        let seldom = self.required().into_iter().filter(|(_, _, count)| *count < LEAST_COUNT);
        seldom
            .map(|(group, name, count)| format!("{group} {name} came up {count} times, not {LEAST_COUNT}"))
            .collect()
    }

    /// The counts, a line for each group.
    pub fn lines(&self) -> Vec<String> {
        let mut lines: Vec<(&'static str, String)> = Vec::new();
        for (group, name, count) in self.required() {
            let entry = format!("{name}: {count}");
            match lines.iter_mut().find(|line| line.0 == group) {
                Some(line) => line.1 += &format!(", {entry}"),
                None => lines.push((group, entry)),
            }
        }
        lines.into_iter().map(|(group, entries)| format!("{group:8} {entries}")).collect()
    }
}

/// The names that are required, in the order in which they are printed.
fn required_names(programs: bool) -> Vec<(&'static str, String)> {
    let mut names = Vec::new();
    for (group, list) in [("reason", &REASONS[..]), ("place", &PLACES[..])] {
        names.extend(
            list.iter()
                .flat_map(|(number, list)| list.iter().map(move |name| (group, format!("{number} {name}")))),
        );
    }
    for (group, last) in [("k", LAST_SINGLE_K), ("board", 8), ("sets", 4)] {
        names.extend((0..=last).map(|number| (group, number.to_string())));
    }
    for (group, list) in [
        ("k", &GROUPED_K[..]),
        ("counts", &COUNTS[..]),
        ("table", &TABLES[..]),
        ("lasso", &LASSOS[..]),
        ("walk", &WALKS[..]),
    ] {
        names.extend(list.iter().map(|name| (group, name.to_string())));
    }
    if programs {
        names.extend(VERDICT_LINES.map(|name| ("verdict", name.to_string())));
        names.extend(TRANSLATE_LINES.map(|name| ("written", name.to_string())));
    }
    names
}

const GROUPED_K: [&str; 3] = ["13 to 20", "21 to 40", "above 40"];

fn length_name(k: usize) -> String {
    match k {
        0..=LAST_SINGLE_K => k.to_string(),
        13..=20 => GROUPED_K[0].to_string(),
        21..=40 => GROUPED_K[1].to_string(),
        _ => GROUPED_K[2].to_string(),
    }
}
