//! The inputs for the two programs: tables by hand, drawn and damaged ones, those about the programs' own buffer sizes, and long or empty inputs.

use crate::draw::damage::{damaged, with_wrong_counts};
use crate::draw::hand::{hand_headers, hand_tables};
use crate::draw::large::{large, largest, of_size};
use crate::draw::random::Random;
use crate::draw::sketch::{MOST_EDGES, MOST_STATES};
use crate::draw::small::small;
use std::time::Duration;

/// The programs' buffers: verdict has room for so many slots, and translate for so many bytes.
const VERDICT_SLOTS: usize = 8_192;
const TRANSLATE_BYTES: usize = 65_536;
const HUGE_INPUT: usize = 100_000;

#[derive(Clone)]
pub struct Input {
    pub kind: &'static str,
    pub bytes: Vec<u8>,
    pub at_a_time: usize,
    pub pause: Duration,
}

pub fn inputs(seed: u64) -> Vec<Input> {
    let mut all = Vec::new();
    for hand in hand_tables() {
        all.push(at_once("hand", hand.sketch.file()));
        all.push(in_parts("hand in parts", hand.sketch.file(), 1, 1));
        all.push(in_parts("hand in parts", hand.sketch.file(), 27, 3));
    }
    all.extend(hand_headers().map(|hand| at_once("header by hand", hand.file())));
    let random = &mut Random::for_table(seed, "programs", 0);
    all.extend((0..80).map(|_| at_once("small", small(random).file())));
    all.extend((0..60).map(|_| at_once("large", large(random).file())));
    all.extend((0..80).map(|_| at_once("damaged", damaged(random))));
    all.extend((0..120).map(|_| at_once("wrong counts", with_wrong_counts(random))));
    all.extend((0..10).map(|i| at_once("no board", of_size(random, MOST_STATES, 64 << (i % 5), 3 + i % 2).file())));
    about_verdict(random, &mut all);
    about_translate(random, &mut all);
    long_inputs(random, &mut all);
    all.extend((0..10).map(|_| in_parts("small in parts", small(random).file(), random.between(1, 9), 1)));
    all.extend((0..6).map(|_| in_parts("large in parts", large(random).file(), random.between(50, 700), 2)));
    all
}

fn at_once(kind: &'static str, bytes: Vec<u8>) -> Input {
    let at_a_time = bytes.len().max(1);
    Input {
        kind,
        bytes,
        at_a_time,
        pause: Duration::ZERO,
    }
}

fn in_parts(kind: &'static str, bytes: Vec<u8>, at_a_time: usize, pause: u64) -> Input {
    Input {
        kind,
        bytes,
        at_a_time,
        pause: Duration::from_millis(pause),
    }
}

/// For each m, the most states that verdict has room for, and one more.
fn about_verdict(random: &mut Random, all: &mut Vec<Input>) {
    for m in 0..=4 {
        let most = (1..=64)
            .rev()
            .find(|n| (n * (n + 1)) << (m + 1) <= VERDICT_SLOTS)
            .expect("room for one state");
        for n in most..=64.min(most + 1) {
            let e = random.between(n, 2 * n);
            all.push(at_once("about verdict's room", of_size(random, n, e, m).file()));
        }
    }
}

/// The tables whose translations come closest to translate's room, from below and from above.
fn about_translate(random: &mut Random, all: &mut Vec<Input>) {
    let mut shapes = Vec::new();
    for (n, m) in (1..=64usize).flat_map(|n| (0..=4usize).map(move |m| (n, m))) {
        for e in n..=MOST_EDGES.min(n * n) {
            let bytes = 32 + ((5 * n * (n + 1) + 4 * e * (n + 2)) << (m + 1));
            shapes.push((bytes.abs_diff(TRANSLATE_BYTES), bytes <= TRANSLATE_BYTES, n, e, m));
        }
    }
    shapes.sort_unstable();
    for fits in [true, false] {
        for &(_, _, n, e, m) in shapes.iter().filter(|shape| shape.1 == fits).take(10) {
            all.push(at_once("about translate's room", of_size(random, n, e, m).file()));
        }
    }
}

/// Empty, as long as the longest table, one or two bytes more, and far more.
fn long_inputs(random: &mut Random, all: &mut Vec<Input>) {
    all.push(at_once("empty", Vec::new()));
    let (largest, little) = (largest(random).file(), small(random).file());
    let noise: Vec<u8> = (0..HUGE_INPUT).map(|_| random.word() as u8).collect();
    for length in [largest.len(), largest.len() + 1, largest.len() + 2, HUGE_INPUT] {
        for table in [&largest[..], &little, &[]] {
            for rest in [&noise, &vec![0; HUGE_INPUT]] {
                let bytes = [table, &rest[table.len()..length]].concat();
                all.push(at_once("long", bytes.clone()));
                all.push(in_parts("long in parts", bytes, 1_111, 1));
            }
        }
    }
    all.push(in_parts("largest in parts", largest, 100, 1));
}

#[cfg(test)]
mod tests {
    use super::*;
    use crate::independent::file::open;
    use crate::independent::quote::{quote, Quote};

    fn quotes(kind: &str) -> Vec<Quote> {
        let inputs = inputs(1);
        inputs
            .iter()
            .filter(|input| input.kind == kind)
            .map(|input| quote(&open(&input.bytes).expect("an accepted table")))
            .collect()
    }

    #[test]
    fn room_is_met_from_both_sides() {
        let slots = quotes("about verdict's room");
        assert!(slots.iter().any(|quote| quote.slots > VERDICT_SLOTS) && slots.iter().any(|quote| quote.slots <= VERDICT_SLOTS));
        let bytes = quotes("about translate's room");
        assert!(bytes.iter().filter(|quote| quote.bytes > TRANSLATE_BYTES).count() == 10 && bytes.len() == 20);
    }

    #[test]
    fn long_inputs_have_their_lengths() {
        let inputs = inputs(2);
        for length in [0, 4_448, 4_449, 4_450, 100_000] {
            assert!(inputs.iter().any(|input| input.bytes.len() == length), "{length}");
        }
    }
}
