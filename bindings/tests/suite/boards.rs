//! The boards of the wrappers, those of the header, and those by which the library quotes.
use crate::header;
use crate::tables::filled;
use lasso::{Sheet, BOARDS, MOST_EDGES, MOST_SETS, MOST_STATES, NO_BOARD};

#[test]
fn the_header_has_the_same_boards() {
    let rows: Vec<_> = BOARDS.iter().map(|board| (board.letter, board.slots, board.edges)).collect();
    assert_eq!(header::boards(), rows);
    let letters: String = BOARDS.iter().map(|board| board.letter).collect();
    assert_eq!(letters, "ABCDEFGH");
}

fn first_with_room(sheet: &Sheet) -> usize {
    let found = BOARDS.iter().position(|board| sheet.slots <= board.slots && sheet.edges <= board.edges);
    found.unwrap_or(NO_BOARD)
}

/// For all n and m, the tables with the fewest and the most edges, with the most that a board has room for, and with one edge more than that.
fn around_the_bounds() -> impl Iterator<Item = Vec<u8>> {
    let counts = (1..=MOST_STATES).flat_map(|states| (0..=MOST_SETS).map(move |sets| (states, sets)));
    counts.flat_map(|(states, sets)| {
        let (fewest, most) = (states, MOST_EDGES.min(states * states));
        let bounds = BOARDS.iter().map(move |board| board.edges / ((states + 2) << (sets + 1)));
        let edge_counts = bounds.flat_map(|edges| [edges, edges + 1]).chain([fewest, most]);
        let possible = edge_counts.filter(move |edges| (fewest..=most).contains(edges));
        possible.map(move |edges| filled(states, edges, sets))
    })
}

#[test]
fn the_library_quotes_by_these_boards() {
    let mut quoted = [0; BOARDS.len() + 1];
    let mut edges_filled = [0; BOARDS.len() + 1];
    for table in around_the_bounds() {
        let sheet = lasso::quote(&table).expect("the table is accepted");
        assert_eq!(sheet.board, first_with_room(&sheet), "{sheet:?}");
        quoted[sheet.board] += 1;
        edges_filled[sheet.board] += usize::from(BOARDS.get(sheet.board).is_some_and(|board| board.edges == sheet.edges));
    }
    assert!(quoted.iter().all(|count| *count >= 10), "{quoted:?}");
    // No table fills board A's edges: that wants n + 2 to be a power of two, and such tables have too many slots or too few edges.
    assert!(edges_filled[1..NO_BOARD].iter().all(|count| *count >= 1), "{edges_filled:?}");
}

#[test]
fn boards_filled_exactly() {
    let board_of = |states, edges, sets| lasso::quote(&filled(states, edges, sets)).map(|sheet| (sheet.slots, sheet.edges, sheet.board));
    assert_eq!(board_of(1, 1, 4), Ok((64, 96, 0)));
    assert_eq!(board_of(6, 32, 1), Ok((168, 1_024, 1)));
    assert_eq!(board_of(6, 33, 1), Ok((168, 1_056, 2)));
    assert_eq!(board_of(62, 1_024, 3), Ok((62_496, 1_048_576, 7)));
    assert_eq!(board_of(63, 1_024, 3), Ok((64_512, 1_064_960, 8)));
}
