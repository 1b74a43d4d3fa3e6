//! Tests of the independent program on what is worked out in docs/RULES.md, "Tables by hand" and "Refusal list".

use super::definition::is_lasso;
use super::file::open;
use super::least::least_lasso;
use super::lengths::{search_refused, translate_refused};
use super::printed;
use super::quote::{quote, Quote};
use super::refusal::{Refusal, Refused};
use super::table::Table;
use crate::draw::hand::{hand_headers, hand_tables, Hand};
use crate::draw::sketch::{file, Sketch};

fn hand_table(name: &str) -> Hand {
    hand_tables().into_iter().find(|hand| hand.name == name).expect("a table by hand")
}

fn opened(sketch: &Sketch) -> Table {
    open(&sketch.file()).expect("an accepted table")
}

fn refusal(answer: Result<Table, Refused>) -> (u32, usize) {
    let Refusal { number, place } = answer.expect_err("a refusal").refusal;
    (number, place)
}

/// Table a's bytes with one number changed.
fn a_with(at: usize, number: u32) -> Vec<u8> {
    let mut bytes = hand_table("a").sketch.file();
    bytes[at..at + 4].copy_from_slice(&number.to_le_bytes());
    bytes
}

#[test]
fn the_twelve_tables() {
    for hand in hand_tables() {
        let table = opened(&hand.sketch);
        let found = least_lasso(&table).map(|least| least.lasso);
        let said = hand.lasso.map(|(k, l, run)| (k, l, run.to_vec()));
        assert_eq!(
            found.as_ref().map(|lasso| (lasso.states.len() - 1, lasso.l, lasso.states.clone())),
            said,
            "table {}",
            hand.name
        );
        assert!(found.is_none_or(|lasso| is_lasso(&table, &lasso.states, lasso.l)), "table {}", hand.name);
        let Quote {
            slots, edges, bytes, board, ..
        } = quote(&table);
        assert_eq!(
            (slots, edges, bytes, board),
            (hand.size.0, hand.size.1, hand.size.2, 0),
            "table {}",
            hand.name
        );
    }
}

#[test]
fn the_boards_of_six_states_and_one_set() {
    for (e, edges, board) in [(32, 1_024, 1), (33, 1_056, 2)] {
        let mut sketch = Sketch::new(6, 1);
        for edge in 0..e {
            sketch.add(edge % 6, edge / 6);
        }
        let quote = quote(&opened(&sketch));
        assert_eq!((quote.slots, quote.edges, quote.board), (168, edges, board));
    }
}

#[test]
fn short_buffers_of_table_a() {
    let quote = quote(&opened(&hand_table("a").sketch));
    let number = |refused: Option<Refused>| refused.map(|refused| refused.refusal.number);
    assert_eq!(number(search_refused(&quote, 79, 40)), Some(9));
    assert_eq!(number(search_refused(&quote, 80, 39)), Some(10));
    assert_eq!(number(search_refused(&quote, 79, 39)), Some(9));
    assert_eq!(number(search_refused(&quote, 80, 40)), None);
    assert_eq!(number(translate_refused(&quote, 615)), Some(11));
    assert_eq!(number(translate_refused(&quote, 616)), None);
}

#[test]
fn refusals_of_the_header() {
    let a = hand_table("a").sketch.file();
    assert_eq!(refusal(open(&a[..27])), (1, 0));
    assert_eq!(refusal(open(&a[..28])), (4, 0));
    assert_eq!(refusal(open(&a_with(0, 2))), (2, 0));
    assert_eq!(refusal(open(&file(0, &vec![vec![0]; 65], &[0; 65]))), (3, 0));
    for (at, number, line) in [(4, 0, 3), (4, 65, 3), (8, 0, 14), (8, 1_025, 14), (12, 5, 15), (12, u32::MAX, 15)] {
        assert_eq!(refusal(open(&a_with(at, number))), (line, 0), "{number} at byte {at}");
    }
    for (at, number) in [(4, 5), (8, 9), (16, 29), (20, 44), (24, 0)] {
        assert_eq!(refusal(open(&a_with(at, number))), (4, 0), "{number} at byte {at}");
    }
    assert_eq!(refusal(open(&[a, vec![0]].concat())), (4, 0));
}

#[test]
fn which_count_is_wrong() {
    for hand in hand_headers() {
        let refused = open(&hand.file()).err().map(|refused| (refused.refusal.number, refused.refusal.place));
        assert_eq!(refused, hand.refused.map(|number| (number, 0)), "{}", hand.name);
    }
}

/// Table a has row starts 0, 2, 4, 6, 8 from byte 28, targets 0 1, 1 2, 2 3, 0 3 from byte 48, and four marks from byte 80.
#[test]
fn refusals_of_the_sections() {
    for (at, number, answer) in [
        (28, 1, (5, 0)),
        (32, 9, (5, 1)),
        (36, 1, (5, 2)),
        (44, 7, (5, 4)),
        (44, 9, (5, 4)),
        (48, 4, (6, 0)),
        (48, 1, (6, 1)),
        (52, 0, (6, 1)),
        (76, 0, (6, 7)),
        (80, 0x40, (8, 0)),
        (80, 0x8000_0000, (8, 3)),
        (80, 0x0004_0000, (8, 2)),
    ] {
        assert_eq!(refusal(open(&a_with(at, number))), answer, "{number} at byte {at}");
    }
    assert_eq!(refusal(open(&file(0, &[vec![0], vec![], vec![0]], &[0; 3]))), (7, 1));
    assert_eq!(refusal(open(&file(0, &[vec![0], vec![1], vec![]], &[0; 3]))), (7, 2));
}

#[test]
fn what_verdict_prints() {
    let a = hand_table("a").sketch.file();
    assert_eq!(printed::verdict(&a), "size 40 96 616\nboard A\nmembers 0 0 0 0\nlasso 0 0\nrun 0\n");
    let g = hand_table("g").sketch.file();
    assert_eq!(printed::verdict(&g), "size 48 64 528\nboard A\nmembers 1 1 0 0\nlasso 1 0\nrun 0 1\n");
    assert_eq!(printed::verdict(&[]), "refused 1 0\n");
    assert_eq!(printed::verdict(&[a, vec![0; 100_000]].concat()), "refused 4 0\n");
}

#[test]
fn what_translate_writes_for_table_c() {
    let numbers: [u32; 18] = [2, 4, 6, 0, 28, 48, 72, 0, 1, 2, 4, 6, 0, 1, 0, 2, 1, 3];
    let mut bytes: Vec<u8> = numbers.iter().flat_map(|number| number.to_le_bytes()).collect();
    bytes.extend([64, 0, 1, 0]);
    assert_eq!(printed::translate(&hand_table("c").sketch.file()), bytes);
    assert_eq!(printed::translate(&[0; 27]), b"refused 1 0\n");
}
