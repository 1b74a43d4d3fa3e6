//! The numbers of a table file, each said once. Reads docs/RULES.md, "The table file" and the letters of "Quote sheet".

/// The kind of a client's table.
pub const KIND: u32 = 1;

pub const MOST_STATES: usize = 64;
pub const MOST_EDGES: usize = 1024;
pub const MOST_SETS: usize = 4;

/// Bytes of one number.
pub const WORD: usize = 4;
/// Kind, states, edges, sets and three offsets.
const HEADER_WORDS: usize = 7;

/// Mark bits: start, goal, then one bit for each set.
pub const START_BIT: u8 = 1;
pub const GOAL_BIT: u8 = 2;
const FIRST_SET_BIT: u8 = 4;

/// The board's letters by board number; the last is for no board.
pub const BOARDS: [&str; 9] = ["A", "B", "C", "D", "E", "F", "G", "H", "none"];

pub fn set_bit(set: usize) -> u8 {
    FIRST_SET_BIT << set
}

/// Where the three sections of a table file begin, and its length.
#[derive(Clone, Copy, Debug, PartialEq, Eq)]
pub struct Layout {
    pub row_starts: usize,
    pub targets: usize,
    pub marks: usize,
    pub length: usize,
}

impl Layout {
    pub fn of(states: usize, edges: usize) -> Layout {
        let row_starts = WORD * HEADER_WORDS;
        let targets = row_starts + WORD * (states + 1);
        let marks = targets + WORD * edges;
        Layout {
            row_starts,
            targets,
            marks,
            length: marks + states,
        }
    }
}

#[cfg(test)]
mod tests {
    use super::*;

    #[test]
    fn lengths_are_those_of_document_01() {
        for (states, edges) in [(1, 1), (4, 8), (MOST_STATES, MOST_EDGES)] {
            assert_eq!(Layout::of(states, edges).length, 32 + 5 * states + 4 * edges);
        }
        assert_eq!(Layout::of(MOST_STATES, MOST_EDGES).length, 4448);
    }

    #[test]
    fn the_last_set_has_bit_5() {
        assert_eq!(set_bit(0), 1 << 2);
        assert_eq!(set_bit(MOST_SETS - 1), 1 << 5);
    }
}
