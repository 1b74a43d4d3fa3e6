//! The quote sheet apart from the count of members: docs/RULES.md, "Quote sheet".

use super::parts::Parts;
use lasso::Sheet;

/// Slots and edges of boards A to H.
const BOARDS: [(usize, usize); 8] = [
    (64, 256),
    (256, 1_024),
    (1_024, 4_096),
    (4_096, 16_384),
    (8_192, 65_536),
    (16_384, 131_072),
    (32_768, 262_144),
    (65_536, 1_048_576),
];

pub fn sheet(parts: &Parts, members: [usize; 4]) -> Sheet {
    let (slots, edges) = (parts.slots(), parts.slot_edges());
    let board = BOARDS
        .iter()
        .position(|&(most_slots, most_edges)| slots <= most_slots && edges <= most_edges)
        .unwrap_or(BOARDS.len());
    Sheet {
        slots,
        edges,
        bytes: parts.translated_bytes(),
        board,
        members,
    }
}
