//! The tables that are measured, with their names.

use super::{damaged, drawn, hand, holding, lassos, Sketch};
use crate::random::Random;
use lasso::Record;

pub struct Case {
    pub name: String,
    pub table: Vec<u8>,
}

/// Named by what it is and by its size.
fn case(name: &str, sketch: &Sketch) -> Case {
    let name = format!("{name}, n {} e {} m {}", sketch.states(), sketch.edges(), sketch.sets);
    Case { name, table: sketch.bytes() }
}

pub fn opened() -> Vec<Case> {
    let random = &mut Random::seeded(100);
    let largest = drawn::usual(random, 64, 1024, 4);
    let mut refused = case("refused, last target", &largest);
    refused.table = damaged::last_target_wrong(&largest);
    vec![
        case("small", &drawn::usual(random, 4, 8, 0)),
        case("medium", &drawn::usual(random, 16, 64, 2)),
        case("largest", &largest),
        refused,
    ]
}

pub fn searched() -> Vec<Case> {
    let r = &mut Random::seeded(200);
    let hand = [
        case("holds, hand table b", &hand::b()),
        case("holds, hand table j, goal 3 too", &hand::j_with_goal_3()),
        case("lasso, hand table a", &hand::a()),
        case("lasso, hand table j", &hand::j()),
    ];
    let holds = [
        case("holds, goal on loops", &holding::goal_on_loops(r, 8, 24, 0)),
        case("holds, goal on loops", &holding::goal_on_loops(r, 16, 48, 2)),
        case("holds, empty set", &holding::empty_set(r, 16, 48, 2)),
        case("holds, set before loops", &holding::set_before_loops(r, 32, 96, 4)),
        case("holds, empty set", &holding::empty_set(r, 64, 128, 4)),
        case("holds, goal on loops", &holding::goal_on_loops(r, 64, 256, 4)),
        case("holds, empty set", &holding::empty_set(r, 64, 256, 4)),
        case("holds, empty set", &holding::empty_set(r, 64, 1024, 4)),
    ];
    let lasso = [
        case("lasso late", &lassos::at_end_of_chain(8)),
        case("lasso at once", &lassos::at_once(r, 16, 48, 2)),
        case("lasso late", &lassos::late(r, 16, 48, 2)),
        case("lasso late", &lassos::late(r, 32, 96, 4)),
        case("lasso late", &lassos::late(r, 64, 128, 4)),
        case("lasso at once", &lassos::at_once(r, 64, 256, 4)),
        case("lasso late", &lassos::late(r, 64, 256, 4)),
        case("lasso at once", &lassos::at_once(r, 64, 1024, 4)),
        case("lasso late", &lassos::late(r, 64, 1024, 4)),
    ];
    hand.into_iter().chain(holds).chain(lasso).collect()
}

pub fn translated() -> Vec<Case> {
    let random = &mut Random::seeded(300);
    [(4, 8, 0), (16, 64, 2), (32, 128, 3), (64, 1024, 4)]
        .map(|(n, e, m)| case("drawn", &drawn::usual(random, n, e, m)))
        .into()
}

/// A record of a state in the middle, and the last target of its row.
pub fn stepped() -> Vec<(Case, Record, usize)> {
    let random = &mut Random::seeded(400);
    [(64, 256, 4), (64, 1024, 4)]
        .map(|(n, e, m)| {
            let sketch = drawn::usual(random, n, e, m);
            let s = n / 2;
            let next = *sketch.rows[s].last().expect("no row of a drawn table is empty");
            (case("opens the table each time", &sketch), Record { s, t: n, live: false, v: 0 }, next)
        })
        .into()
}

/// A night's work: tables of many sizes and kinds, one in twenty damaged.
pub fn night(count: usize) -> Vec<Vec<u8>> {
    let random = &mut Random::seeded(500);
    (0..count).map(|_| of_the_night(random)).collect()
}

fn of_the_night(random: &mut Random) -> Vec<u8> {
    let n = if random.percent(5) { 64 } else { random.between(4, 32) };
    let m = random.between(0, 4);
    let e = random.between(2 * n, (n * n / 2).min(4 * n));
    let bytes = match random.below(20) {
        0..=1 if m >= 2 => lassos::late(random, n, e, m),
        2..=4 if m >= 1 => holding::empty_set(random, n, e, m),
        5..=9 => holding::goal_on_loops(random, n, e, m),
        _ => drawn::usual(random, n, e, m),
    }
    .bytes();
    if random.percent(5) {
        damaged::anyhow(random, bytes)
    } else {
        bytes
    }
}
