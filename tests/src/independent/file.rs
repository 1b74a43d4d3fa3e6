//! Reads a table file: "The table file", and the table's own lines of "Refusal list". Each line is a function that answers the place and the reason
//! where the line applies; they are asked in the list's order, so each may rely on those before it.

use super::refusal::{reason_among, refused, Refused, PLAIN};
use super::table::Table;

const HEADER_BYTES: usize = 28;

/// The file's numbers, as wide as needed for no sum of them to wrap.
struct Header {
    kind: u64,
    n: u64,
    e: u64,
    m: u64,
    row_starts_at: u64,
    targets_at: u64,
    marks_at: u64,
}

/// The three sections of a file whose header and length are right.
struct Sections {
    row_starts: Vec<u64>,
    targets: Vec<u64>,
    marks: Vec<u8>,
}

/// The place and the reason of a line that applies.
type Found = (usize, &'static str);

pub fn open(bytes: &[u8]) -> Result<Table, Refused> {
    if bytes.len() < HEADER_BYTES {
        return Err(refused(1, 0, PLAIN));
    }
    let header = read_header(bytes);
    if header.kind != 1 {
        return Err(refused(2, 0, PLAIN));
    }
    refuse_if(3, wrong_states(&header))?;
    refuse_if(14, wrong_edges(&header))?;
    refuse_if(15, wrong_sets(&header))?;
    refuse_if(4, wrong_layout(&header, bytes.len() as u64))?;
    let sections = read_sections(&header, bytes);
    refuse_if(5, wrong_row_start(&header, &sections))?;
    refuse_if(6, wrong_target(&header, &sections))?;
    refuse_if(7, empty_row(&sections))?;
    refuse_if(8, wrong_mark(&header, &sections))?;
    Ok(take_apart(&header, &sections))
}

fn refuse_if(number: u32, found: Option<Found>) -> Result<(), Refused> {
    match found {
        Some((place, reason)) => Err(refused(number, place, reason)),
        None => Ok(()),
    }
}

/// The little-endian 32-bit number at a byte.
fn number_at(bytes: &[u8], at: usize) -> u64 {
    bytes[at..at + 4].iter().rev().fold(0, |sum, &byte| sum * 256 + u64::from(byte))
}

fn read_header(bytes: &[u8]) -> Header {
    let number = |index: usize| number_at(bytes, 4 * index);
    Header {
        kind: number(0),
        n: number(1),
        e: number(2),
        m: number(3),
        row_starts_at: number(4),
        targets_at: number(5),
        marks_at: number(6),
    }
}

fn read_sections(header: &Header, bytes: &[u8]) -> Sections {
    let numbers = |at: u64, count: u64| (0..count).map(|i| number_at(bytes, (at + 4 * i) as usize)).collect();
    Sections {
        row_starts: numbers(header.row_starts_at, header.n + 1),
        targets: numbers(header.targets_at, header.e),
        marks: bytes[header.marks_at as usize..].to_vec(),
    }
}

fn wrong_states(header: &Header) -> Option<Found> {
    let reason = reason_among(&[(header.n < 1, "n below 1"), (header.n > 64, "n above 64")])?;
    Some((0, reason))
}

fn wrong_edges(header: &Header) -> Option<Found> {
    let reason = reason_among(&[(header.e < 1, "e below 1"), (header.e > 1024, "e above 1024")])?;
    Some((0, reason))
}

fn wrong_sets(header: &Header) -> Option<Found> {
    (header.m > 4).then_some((0, PLAIN))
}

fn wrong_layout(header: &Header, length: u64) -> Option<Found> {
    let targets_at = 28 + 4 * (header.n + 1);
    let right_length = 32 + 5 * header.n + 4 * header.e;
    let reason = reason_among(&[
        (header.row_starts_at != 28, "offset of row starts"),
        (header.targets_at != targets_at, "offset of targets"),
        (header.marks_at != targets_at + 4 * header.e, "offset of marks"),
        (length < right_length, "length too short"),
        (length > right_length, "length too long"),
    ])?;
    Some((0, reason))
}

fn wrong_row_start(header: &Header, sections: &Sections) -> Option<Found> {
    let starts = &sections.row_starts;
    let last = starts.len() - 1;
    (0..=last).find_map(|i| {
        let reason = reason_among(&[
            (i == 0 && starts[i] != 0, "first not 0"),
            (i > 0 && starts[i] < starts[i - 1], "below the one before"),
            (starts[i] > header.e, "above e"),
            (i == last && starts[i] != header.e, "last not e"),
        ])?;
        Some((i, reason))
    })
}

/// The indices of the targets that each state owns.
fn rows(sections: &Sections) -> impl Iterator<Item = std::ops::Range<usize>> + '_ {
    sections.row_starts.windows(2).map(|pair| pair[0] as usize..pair[1] as usize)
}

fn wrong_target(header: &Header, sections: &Sections) -> Option<Found> {
    let targets = &sections.targets;
    rows(sections).find_map(|row| {
        row.clone().find_map(|i| {
            let before = if i > row.start { Some(targets[i - 1]) } else { None };
            let reason = reason_among(&[
                (targets[i] >= header.n, "n or more"),
                (before == Some(targets[i]), "equal to the one before"),
                (before > Some(targets[i]), "below the one before"),
            ])?;
            Some((i, reason))
        })
    })
}

fn empty_row(sections: &Sections) -> Option<Found> {
    let state = rows(sections).position(|row| row.is_empty())?;
    Some((state, PLAIN))
}

fn wrong_mark(header: &Header, sections: &Sections) -> Option<Found> {
    sections.marks.iter().enumerate().find_map(|(state, mark)| {
        let has = |bit: u64| mark & (1 << bit) != 0;
        let reason = reason_among(&[
            (has(6), "bit 6"),
            (has(7), "bit 7"),
            ((header.m..4).any(|set| has(2 + set)), "a set not below m"),
        ])?;
        Some((state, reason))
    })
}

fn take_apart(header: &Header, sections: &Sections) -> Table {
    let bit = |bit: u64| sections.marks.iter().map(|mark| mark & (1 << bit) != 0).collect::<Vec<bool>>();
    Table {
        successors: rows(sections)
            .map(|row| sections.targets[row].iter().map(|&target| target as usize).collect())
            .collect(),
        start: bit(0),
        goal: bit(1),
        sets: (0..header.m).map(|set| bit(2 + set)).collect(),
    }
}
