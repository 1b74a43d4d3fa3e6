//! A table taken apart into its three sections: docs/RULES.md, "The table file", and the refusals of a header and a length, 1, 2, 3, 14, 15 and 4. The
//! sizes of the recorded table: "Translated table".

use lasso::{Refusal, Table};

#[derive(Clone, Copy)]
pub struct Parts<'a> {
    pub n: usize,
    pub e: usize,
    pub m: usize,
    pub starts: &'a [[u8; 4]],
    pub targets: &'a [[u8; 4]],
    pub marks: &'a [u8],
}

/// The number in a little-endian word.
pub fn number(word: [u8; 4]) -> usize {
    u32::from_le_bytes(word) as usize
}

pub fn refused<T>(number: u32, place: usize) -> Result<T, Refusal> {
    Err(Refusal { number, place })
}

impl<'a> Parts<'a> {
    /// The sections, where the header and the length are right. What stands in the sections is not looked at.
    #[inline]
    pub fn by_header(table: &'a [u8]) -> Result<Self, Refusal> {
        let Some((header, body)) = table.split_first_chunk::<28>() else {
            return refused(1, 0);
        };
        let (words, _) = header.as_chunks::<4>();
        let at = |i: usize| number(words[i]);
        if at(0) != 1 {
            return refused(2, 0);
        }
        let (n, e, m) = (at(1), at(2), at(3));
        if !(1..=64).contains(&n) {
            return refused(3, 0);
        }
        if !(1..=1024).contains(&e) {
            return refused(14, 0);
        }
        if m > 4 {
            return refused(15, 0);
        }
        if at(4) != 28 || at(5) != 32 + 4 * n || at(6) != 32 + 4 * n + 4 * e || table.len() != 32 + 5 * n + 4 * e {
            return refused(4, 0);
        }
        let (starts, rest) = body.split_at(4 * (n + 1));
        let (targets, marks) = rest.split_at(4 * e);
        Ok(Parts {
            n,
            e,
            m,
            starts: starts.as_chunks().0,
            targets: targets.as_chunks().0,
            marks,
        })
    }

    pub fn table(&self) -> Table {
        Table {
            states: self.n,
            edges: self.e,
            sets: self.m,
        }
    }

    /// The targets of state s, where the row starts are right.
    #[inline]
    pub fn row(&self, s: usize) -> &'a [[u8; 4]] {
        &self.targets[number(self.starts[s])..number(self.starts[s + 1])]
    }

    #[inline]
    pub fn is_start(&self, s: usize) -> bool {
        self.marks[s] & 1 != 0
    }

    #[inline]
    pub fn has_goal(&self, s: usize) -> bool {
        self.marks[s] & 2 != 0
    }

    /// The bits of the sets that hold s, set 0 in bit 0.
    #[inline]
    pub fn sets_of(&self, s: usize) -> usize {
        usize::from(self.marks[s] >> 2)
    }

    /// The mark bits that must be clear.
    pub fn clear_bits(&self) -> u8 {
        !((1u8 << (self.m + 2)) - 1)
    }

    /// 2^m.
    pub fn fairness_values(&self) -> usize {
        1 << self.m
    }

    /// The slots of one state.
    pub fn slots_of_state(&self) -> usize {
        (self.n + 1) * 2 * self.fairness_values()
    }

    /// S.
    pub fn slots(&self) -> usize {
        self.n * self.slots_of_state()
    }

    /// E.
    pub fn slot_edges(&self) -> usize {
        self.e * (self.n + 2) * 2 * self.fairness_values()
    }

    /// The bytes of the translated table.
    pub fn translated_bytes(&self) -> usize {
        32 + 5 * self.slots() + 4 * self.slot_edges()
    }
}
