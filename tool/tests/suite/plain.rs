//! The tests' own view of a table, its bytes and its canonical text. Reads docs/RULES.md, "The table file". It shares nothing with the tool, so that
//! an error of the tool that undoes itself on the way back is seen.

#[derive(Clone, Debug, PartialEq, Eq)]
pub struct Plain {
    pub sets: usize,
    pub marks: Vec<u8>,
    pub rows: Vec<Vec<usize>>,
}

impl Plain {
    pub fn starts(&self, state: usize) -> bool {
        self.marks[state] & 1 == 1
    }

    pub fn goal(&self, state: usize) -> bool {
        self.marks[state] >> 1 & 1 == 1
    }

    pub fn members(&self, state: usize) -> Vec<usize> {
        (0..4).filter(|set| self.marks[state] >> (2 + set) & 1 == 1).collect()
    }

    pub fn edges(&self) -> Vec<(usize, usize)> {
        let of_row = |(from, row): (usize, &Vec<usize>)| row.iter().map(|to| (from, *to)).collect::<Vec<_>>();
        self.rows.iter().enumerate().flat_map(of_row).collect()
    }

    pub fn bytes(&self) -> Vec<u8> {
        let (n, e) = (self.rows.len(), self.edges().len());
        let mut words = vec![1, n, e, self.sets, 28, 32 + 4 * n, 32 + 4 * n + 4 * e];
        words.extend((0..=n).map(|state| self.rows[..state].iter().map(Vec::len).sum::<usize>()));
        words.extend(self.rows.concat());
        let mut bytes: Vec<u8> = words.iter().flat_map(|word| u32::try_from(*word).unwrap().to_le_bytes()).collect();
        bytes.extend(&self.marks);
        bytes
    }

    /// Of accepted bytes only.
    pub fn from_bytes(bytes: &[u8]) -> Plain {
        let word = |offset: usize| u32::from_le_bytes(bytes[offset..offset + 4].try_into().unwrap()) as usize;
        let (n, sets, marks) = (word(4), word(12), word(24));
        let (starts, targets) = (word(16), word(20));
        let row = |state: usize| {
            (word(starts + 4 * state)..word(starts + 4 * state + 4))
                .map(|index| word(targets + 4 * index))
                .collect()
        };
        Plain {
            sets,
            marks: bytes[marks..].to_vec(),
            rows: (0..n).map(row).collect(),
        }
    }

    pub fn text(&self) -> String {
        let mut text = String::new();
        if self.sets > 0 {
            text += &format!("sets {}\n", self.sets);
        }
        for (state, row) in self.rows.iter().enumerate() {
            text += &format!("state {state}");
            text += if self.starts(state) { " start" } else { "" };
            text += if self.goal(state) { " goal" } else { "" };
            let members = self.members(state);
            text += if members.is_empty() { "" } else { " in" };
            members.iter().for_each(|set| text += &format!(" {set}"));
            text += " ->";
            row.iter().for_each(|to| text += &format!(" {to}"));
            text += "\n";
        }
        text
    }
}
