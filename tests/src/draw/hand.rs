//! The twelve tables of "Tables by hand", and the headers there, with the answers that the document gives.

use super::sketch::Sketch;

pub struct Hand {
    pub name: &'static str,
    pub sketch: Sketch,
    /// k, l and the run, or nothing where it holds.
    pub lasso: Option<(usize, usize, &'static [usize])>,
    /// S, E, bytes. The board is always A.
    pub size: (usize, usize, usize),
}

pub fn hand_tables() -> Vec<Hand> {
    let ring = [(0, 1), (1, 2), (2, 3), (3, 0)];
    let selves = [(0, 0), (1, 1), (2, 2), (3, 3)];
    let to_4 = [(0, 4), (1, 4), (2, 4), (3, 4)];
    let from_4 = [(4, 0), (4, 1), (4, 2), (4, 3)];
    vec![
        hand("a", table(4, &[&ring, &selves]).goal(3), Some((0, 0, &[0])), (40, 96, 616)),
        hand("b", table(4, &[&ring]).goal(3), None, (40, 48, 424)),
        hand("c", table(1, &[&[(0, 0)]]), Some((0, 0, &[0])), (4, 6, 76)),
        hand("d", table(1, &[&[(0, 0)]]).goal(0), None, (4, 6, 76)),
        hand(
            "e",
            table(2, &[&[(0, 0), (0, 1), (1, 1)]]).set(&[1]),
            Some((1, 1, &[0, 1])),
            (24, 48, 344),
        ),
        hand("f", table(2, &[&[(0, 1), (1, 1)]]).set(&[0]), None, (24, 32, 280)),
        hand(
            "g",
            table(2, &[&[(0, 1), (1, 0)]]).set(&[0]).set(&[1]),
            Some((1, 0, &[0, 1])),
            (48, 64, 528),
        ),
        hand("h", table(2, &[&[(0, 1), (1, 0), (1, 1)]]), Some((1, 0, &[0, 1])), (12, 24, 188)),
        hand(
            "i",
            table(4, &[&[(0, 1), (1, 2), (1, 3), (2, 1), (3, 0)]]),
            Some((2, 0, &[0, 1, 3])),
            (40, 60, 472),
        ),
        hand(
            "j",
            table(5, &[&ring, &to_4, &from_4]).goal(4),
            Some((3, 0, &[0, 1, 2, 3])),
            (60, 168, 1_004),
        ),
        hand("k", table(1, &[&[(0, 0)]]).no_start(), None, (4, 6, 76)),
        hand("l", table(1, &[&[(0, 0)]]).set(&[]).set(&[]).set(&[]).set(&[]), None, (64, 96, 736)),
    ]
}

/// A header before the rest of table c, which has one state and one edge.
pub struct HandHeader {
    pub name: &'static str,
    pub kind: u32,
    /// n, e and m.
    pub counts: [u32; 3],
    /// Where it says that the row starts are.
    pub row_starts_at: u32,
    /// The number of the refusal; the place is 0. Nothing where the table is accepted.
    pub refused: Option<u32>,
}

impl HandHeader {
    /// The offsets of targets and marks are those of one state and one edge.
    pub fn file(&self) -> Vec<u8> {
        let [n, e, m] = self.counts;
        let header = [self.kind, n, e, m, self.row_starts_at, 36, 40];
        let rest = [0, 1, 0];
        let numbers = header.into_iter().chain(rest);
        numbers.flat_map(u32::to_le_bytes).chain([1]).collect()
    }
}

/// Headers with counts at the ends of their ranges and past them, some with another fault beside.
pub fn hand_headers() -> [HandHeader; 14] {
    let client = |name, counts, refused| HandHeader {
        name,
        kind: 1,
        counts,
        row_starts_at: 28,
        refused,
    };
    let far = u32::MAX;
    [
        client("all three counts outside", [0, 0, 9], Some(3)),
        client("edges and sets outside", [1, 0, 9], Some(14)),
        client("five sets", [1, 1, 5], Some(15)),
        client("1,025 edges and five sets", [1, 1_025, 5], Some(14)),
        client("65 states", [65, 1, 0], Some(3)),
        client("states and sets outside", [65, 1, 5], Some(3)),
        client("the most states", [far, 1, 0], Some(3)),
        client("the most edges", [1, far, 0], Some(14)),
        client("the most sets", [1, 1, far], Some(15)),
        client("the most of all three", [far, far, far], Some(3)),
        client("four sets", [1, 1, 4], None),
        HandHeader {
            row_starts_at: 29,
            ..client("four sets and a wrong offset", [1, 1, 4], Some(4))
        },
        HandHeader {
            row_starts_at: 29,
            ..client("five sets and a wrong offset", [1, 1, 5], Some(15))
        },
        HandHeader {
            kind: 2,
            ..client("kind 2 and no state", [0, 1, 0], Some(2))
        },
    ]
}

type Run = Option<(usize, usize, &'static [usize])>;

fn hand(name: &'static str, sketch: Sketch, lasso: Run, size: (usize, usize, usize)) -> Hand {
    Hand { name, sketch, lasso, size }
}

fn table(n: usize, edges: &[&[(usize, usize)]]) -> Sketch {
    let mut sketch = Sketch::new(n, 0);
    for &(s, next) in edges.iter().copied().flatten() {
        sketch.add(s, next);
    }
    sketch
}

impl Sketch {
    fn goal(mut self, s: usize) -> Sketch {
        self.goal |= 1 << s;
        self
    }

    fn set(mut self, members: &[usize]) -> Sketch {
        self.sets.push(members.iter().map(|&s| 1 << s).sum());
        self
    }

    fn no_start(mut self) -> Sketch {
        self.start = 0;
        self
    }
}
