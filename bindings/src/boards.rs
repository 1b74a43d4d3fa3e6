//! The emulation boards.

/// A board, and how many slots and edges of a recorded table it has room for.
#[derive(Clone, Copy, Debug, PartialEq, Eq)]
pub struct Board {
    pub letter: char,
    pub slots: usize,
    pub edges: usize,
}

/// The boards by their number in the quote. A table takes the first that has room for its slots and its edges.
pub const BOARDS: [Board; 8] = [
    board('A', 64, 256),
    board('B', 256, 1_024),
    board('C', 1_024, 4_096),
    board('D', 4_096, 16_384),
    board('E', 8_192, 65_536),
    board('F', 16_384, 131_072),
    board('G', 32_768, 262_144),
    board('H', 65_536, 1_048_576),
];

/// The board's number in the quote where no board has room.
pub const NO_BOARD: usize = BOARDS.len();

const fn board(letter: char, slots: usize, edges: usize) -> Board {
    Board { letter, slots, edges }
}
