//! "Quote sheet": the size of the recorded table, its members and its board.

use super::table::Table;

/// Slots and edges of boards A to H.
const BOARDS: [(usize, usize); 8] = [
    (64, 256),
    (256, 1_024),
    (1_024, 4_096),
    (4_096, 16_384),
    (8_192, 65_536),
    (16_384, 131_072),
    (32_768, 262_144),
    (65_536, 1_048_576),
];

#[derive(Clone, Copy, Debug, PartialEq, Eq)]
pub struct Quote {
    pub slots: usize,
    pub edges: usize,
    pub bytes: usize,
    pub board: usize,
    pub members: [usize; 4],
}

pub fn quote(table: &Table) -> Quote {
    let (n, e, twice_patterns) = (table.states(), table.edges(), 2 * table.bit_patterns());
    let slots = n * (n + 1) * twice_patterns;
    let edges = e * (n + 2) * twice_patterns;
    Quote {
        slots,
        edges,
        bytes: 32 + 5 * slots + 4 * edges,
        board: board(slots, edges),
        members: members(table),
    }
}

fn board(slots: usize, edges: usize) -> usize {
    BOARDS
        .iter()
        .position(|&(room, edge_room)| slots <= room && edges <= edge_room)
        .unwrap_or(BOARDS.len())
}

fn members(table: &Table) -> [usize; 4] {
    let mut members = [0; 4];
    for (count, set) in members.iter_mut().zip(&table.sets) {
        *count = set.iter().filter(|&&member| member).count();
    }
    members
}
