//! The library on the twelve tables of "Tables by hand" and on the headers there: against the answers that the document gives, and with every buffer
//! length.

use super::bench::{Bench, Stop};
use super::case::{Case, Name};
use super::library;
use super::table::{self, Depth};
use crate::draw::hand::{hand_headers, hand_tables, Hand};
use crate::draw::random::Random;

pub fn compare(bench: &mut Bench) -> Result<(), Stop> {
    for hand in hand_tables() {
        let file = hand.sketch.file();
        let case = Case {
            name: Name::Hand(hand.name),
            table: &file,
        };
        compare_given(bench, &case, &hand)?;
        table::compare(bench, case.name, &mut Random::for_table(0, hand.name, 0), &file, Depth::Sweep)?;
    }
    for hand in hand_headers() {
        let file = hand.file();
        let case = Case {
            name: Name::Hand(hand.name),
            table: &file,
        };
        let refused = library::open(&file).err().map(|refusal| (refusal.number, refusal.place));
        let given = hand.refused.map(|number| (number, 0));
        bench.agree(&case, format_args!("open, against the document"), &refused, &given)?;
        table::compare(bench, case.name, &mut Random::for_table(0, hand.name, 0), &file, Depth::Sweep)?;
    }
    Ok(())
}

fn compare_given(bench: &mut Bench, case: &Case, hand: &Hand) -> Result<(), Stop> {
    let quote = library::quote(case.table).map(|quote| (quote.slots, quote.edges, quote.bytes, quote.board));
    let (slots, edges, bytes) = hand.size;
    bench.agree(case, format_args!("quote, against the document"), &quote, &Ok((slots, edges, bytes, 0)))?;
    let mut report = vec![u32::MAX; slots];
    let found = library::search(case.table, &mut vec![u32::MAX; 2 * slots], &mut report);
    bench.agree(
        case,
        format_args!("search, against the document"),
        &found,
        &Ok(hand.lasso.map(|(k, l, _)| (k, l))),
    )?;
    let run: Vec<u32> = hand.lasso.map_or(Vec::new(), |(_, _, run)| run.iter().map(|&s| s as u32).collect());
    report.truncate(run.len());
    bench.agree(case, format_args!("run, against the document"), &report, &run)
}
