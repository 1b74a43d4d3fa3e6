//! What the programs *verdict* and *translate* write to standard output ("Tables by hand", from "Program *translate*" on).

use super::file::open;
use super::least::least_lasso;
use super::lengths::{search_refused, translate_refused};
use super::quote::{quote, Quote};
use super::refusal::Refused;
use super::table::Table;
use super::translator;

/// No more of the input than this is the table.
const READ_BYTES: usize = 4_449;
const WORKSPACE_WORDS: usize = 16_384;
const REPORT_WORDS: usize = 8_192;
const OUTPUT_BYTES: usize = 65_536;

const BOARD_NAMES: [&str; 9] = ["A", "B", "C", "D", "E", "F", "G", "H", "none"];

pub fn verdict(input: &[u8]) -> String {
    match open(read_part(input)) {
        Err(refused) => refused_line(refused),
        Ok(table) => {
            let quote = quote(&table);
            quote_lines(&quote) + &search_lines(&table, &quote)
        }
    }
}

pub fn translate(input: &[u8]) -> Vec<u8> {
    match open(read_part(input)) {
        Err(refused) => refused_line(refused).into_bytes(),
        Ok(table) => match translate_refused(&quote(&table), OUTPUT_BYTES) {
            Some(refused) => refused_line(refused).into_bytes(),
            None => translator::translate(&table),
        },
    }
}

fn read_part(input: &[u8]) -> &[u8] {
    &input[..input.len().min(READ_BYTES)]
}

fn refused_line(refused: Refused) -> String {
    format!("refused {} {}\n", refused.refusal.number, refused.refusal.place)
}

fn quote_lines(quote: &Quote) -> String {
    let board = BOARD_NAMES[quote.board];
    format!(
        "size {} {} {}\nboard {board}\nmembers{}\n",
        quote.slots,
        quote.edges,
        quote.bytes,
        listed(&quote.members)
    )
}

fn search_lines(table: &Table, quote: &Quote) -> String {
    if let Some(refused) = search_refused(quote, WORKSPACE_WORDS, REPORT_WORDS) {
        return refused_line(refused);
    }
    match least_lasso(table) {
        None => "holds\n".to_string(),
        Some(least) => {
            let lasso = least.lasso;
            format!("lasso {} {}\nrun{}\n", lasso.states.len() - 1, lasso.l, listed(&lasso.states))
        }
    }
}

/// The numbers, each with a space before it.
fn listed(numbers: &[usize]) -> String {
    numbers.iter().map(|number| format!(" {number}")).collect()
}
