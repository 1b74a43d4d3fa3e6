//! Damaged tables: an accepted table with one damage or several, files that are too large but otherwise in order, and bytes of no meaning. The
//! table's own lines of "Refusal list" are each aimed at; what a damaged table is refused for, if at all, is not decided here.

use super::large::large;
use super::random::Random;
use super::sketch::{file, Sketch};
use super::small::small;

pub fn damaged(random: &mut Random) -> Vec<u8> {
    match random.below(13) {
        0 => meaningless(random),
        1 => too_much(random),
        2 => with_wrong_counts(random),
        3 | 4 => with_empty_rows(random),
        _ => with_wrong_bytes(random),
    }
}

/// Where n, e and m stand, and for each two numbers near its range and outside it.
const COUNTS: [(usize, [u32; 2]); 3] = [(4, [0, 65]), (8, [0, 1_025]), (12, [5, 6])];

/// In order but for one, two or all three of the counts, each near its range or as large as can be.
pub fn with_wrong_counts(random: &mut Random) -> Vec<u8> {
    let mut bytes = accepted(random).file();
    let wrong = random.between(1, 7);
    for (i, (at, near)) in COUNTS.into_iter().enumerate() {
        let number = if random.chance(70) { random.pick(&near) } else { u32::MAX };
        if wrong >> i & 1 == 1 {
            put(&mut bytes, at, number);
        }
    }
    bytes
}

/// Bytes of any length, mostly about the header's; some begin like a table.
fn meaningless(random: &mut Random) -> Vec<u8> {
    let length = if random.chance(80) {
        random.between(0, 40)
    } else {
        random.between(0, 5_000)
    };
    let mut bytes: Vec<u8> = (0..length).map(|_| random.word() as u8).collect();
    if random.chance(60) {
        let header = small(random).file();
        let kept = random.between(0, length.min(header.len()));
        bytes[..kept].copy_from_slice(&header[..kept]);
    }
    bytes
}

/// In order but for too many states, edges or sets, or for none.
fn too_much(random: &mut Random) -> Vec<u8> {
    let next_row = |n: usize| (0..n).map(|s| vec![(s + 1) % n]).collect::<Vec<_>>();
    match random.below(5) {
        0 => file(0, &[], &[]),
        1 => {
            let n = random.between(65, 90);
            file(random.below(5), &next_row(n), &vec![1; n])
        }
        2 => {
            let n = random.between(33, 64);
            let per_row = random.between(1_024 / n + 1, n);
            file(0, &vec![(0..per_row).collect(); n], &vec![1; n])
        }
        3 => {
            let n = random.between(1, 6);
            file(random.below(5), &vec![vec![]; n], &vec![1; n])
        }
        _ => {
            let n = random.between(1, 6);
            file(random.between(5, 7), &next_row(n), &vec![1; n])
        }
    }
}

/// In order but for one or more empty rows, and now and then a second damage.
fn with_empty_rows(random: &mut Random) -> Vec<u8> {
    let mut sketch = accepted(random);
    if sketch.states() == 1 {
        sketch = large(random);
    }
    for _ in 0..random.pick(&[1, 1, 1, 2, 3]) {
        let s = end_or_middle(random, sketch.states() - 1);
        sketch.rows[s] = 0;
    }
    let mut bytes = sketch.file();
    if random.chance(20) {
        damage(random, &sketch, &mut bytes);
    }
    bytes
}

fn with_wrong_bytes(random: &mut Random) -> Vec<u8> {
    let sketch = accepted(random);
    let mut bytes = sketch.file();
    let times = if random.chance(75) { 1 } else { random.between(2, 4) };
    for _ in 0..times {
        damage(random, &sketch, &mut bytes);
    }
    bytes
}

fn accepted(random: &mut Random) -> Sketch {
    if random.chance(85) {
        small(random)
    } else {
        large(random)
    }
}

/// 0, the last, or any number from 0 to the last.
fn end_or_middle(random: &mut Random, last: usize) -> usize {
    match random.below(4) {
        0 => 0,
        1 => last,
        _ => random.between(0, last),
    }
}

/// One damage to the file of the sketch. Bytes that an earlier damage has cut off are left alone.
fn damage(random: &mut Random, sketch: &Sketch, bytes: &mut Vec<u8>) {
    match random.below(20) {
        0 => cut(random, bytes),
        1 => lengthen(random, bytes),
        2 => damage_kind(random, bytes),
        3..=5 => damage_count(random, bytes),
        6..=8 => damage_offset(random, bytes),
        9..=12 => damage_row_start(random, sketch, bytes),
        13..=15 => damage_target(random, sketch, bytes),
        16..=18 => damage_mark(random, sketch, bytes),
        _ => flip_any_bit(random, bytes),
    }
}

fn cut(random: &mut Random, bytes: &mut Vec<u8>) {
    let length = bytes.len();
    let kept = match random.below(3) {
        0 => length.saturating_sub(random.between(1, 5)),
        1 => random.between(0, length.min(30)),
        _ => random.between(0, length),
    };
    bytes.truncate(kept);
}

fn lengthen(random: &mut Random, bytes: &mut Vec<u8>) {
    for _ in 0..random.pick(&[1, 2, 3, 4, 5, 40]) {
        bytes.push(random.word() as u8);
    }
}

/// Another number near the old one, or with one bit turned, or wide of it.
fn another(random: &mut Random, old: u32) -> u32 {
    match random.below(6) {
        0 => old.wrapping_add(1),
        1 => old.wrapping_sub(1),
        2 => old.wrapping_add(random.pick(&[2, 4, 8, 64, 256])),
        3 => old ^ 1 << random.below(32),
        4 => random.pick(&[0, 1, 2, u32::MAX, 1 << 31, 1 << 30, 1 << 16]),
        _ => random.word() as u32,
    }
}

fn number_at(bytes: &[u8], at: usize) -> Option<u32> {
    Some(u32::from_le_bytes(bytes.get(at..at + 4)?.try_into().ok()?))
}

fn put(bytes: &mut [u8], at: usize, number: u32) {
    if let Some(place) = bytes.get_mut(at..at + 4) {
        place.copy_from_slice(&number.to_le_bytes());
    }
}

fn change(random: &mut Random, bytes: &mut [u8], at: usize) {
    if let Some(old) = number_at(bytes, at) {
        put(bytes, at, another(random, old));
    }
}

fn damage_kind(random: &mut Random, bytes: &mut [u8]) {
    if random.chance(30) {
        put(bytes, 0, 2);
    } else {
        change(random, bytes, 0);
    }
}

/// n, e or m, near its range and outside it, or anything else.
fn damage_count(random: &mut Random, bytes: &mut [u8]) {
    let (at, near) = random.pick(&COUNTS);
    if random.chance(40) {
        let number = random.pick(&near);
        put(bytes, at, number);
    } else {
        change(random, bytes, at);
    }
}

fn damage_offset(random: &mut Random, bytes: &mut [u8]) {
    let at = random.pick(&[16, 20, 24]);
    change(random, bytes, at);
}

fn damage_row_start(random: &mut Random, sketch: &Sketch, bytes: &mut [u8]) {
    let (n, e) = (sketch.states(), sketch.edges() as u32);
    let index = end_or_middle(random, n);
    let at = 28 + 4 * index;
    let before = if index > 0 { number_at(bytes, at - 4).unwrap_or(0) } else { 0 };
    match random.below(6) {
        0 => put(bytes, at, before.saturating_sub(1)),
        1 => put(bytes, at, before),
        2 => put(bytes, at, e + random.between(0, 2) as u32),
        3 => put(bytes, at, e.saturating_sub(1)),
        4 => put(bytes, at, random.below(e as usize + 2) as u32),
        _ => change(random, bytes, at),
    }
}

fn damage_target(random: &mut Random, sketch: &Sketch, bytes: &mut [u8]) {
    let (n, e) = (sketch.states(), sketch.edges());
    let index = end_or_middle(random, e.saturating_sub(1));
    let at = 28 + 4 * (n + 1 + index);
    let before = if index > 0 { number_at(bytes, at - 4).unwrap_or(0) } else { 0 };
    match random.below(6) {
        0 => put(bytes, at, n as u32),
        1 => put(bytes, at, before),
        2 => put(bytes, at, before.saturating_sub(1)),
        3 => put(bytes, at, n as u32 + random.below(3) as u32),
        4 => put(bytes, at, random.below(n) as u32),
        _ => change(random, bytes, at),
    }
}

fn damage_mark(random: &mut Random, sketch: &Sketch, bytes: &mut [u8]) {
    let (n, e) = (sketch.states(), sketch.edges());
    let state = end_or_middle(random, n - 1);
    let bit = if random.chance(80) { random.between(2, 7) } else { random.between(0, 7) };
    if let Some(mark) = bytes.get_mut(28 + 4 * (n + 1 + e) + state) {
        *mark |= 1 << bit;
    }
}

fn flip_any_bit(random: &mut Random, bytes: &mut [u8]) {
    if !bytes.is_empty() {
        let at = random.below(bytes.len());
        bytes[at] ^= 1 << random.below(8);
    }
}
