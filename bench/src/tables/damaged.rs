//! Tables that are refused: docs/RULES.md, the table's own lines of "Refusal list".

use super::sketch::Sketch;
use crate::random::Random;

/// The last target becomes n.
pub fn last_target_wrong(sketch: &Sketch) -> Vec<u8> {
    let mut bytes = sketch.bytes();
    let n = sketch.states();
    let at = bytes.len() - n - 4;
    bytes[at..at + 4].copy_from_slice(&(n as u32).to_le_bytes());
    bytes
}

/// One word, of any section, becomes greater or less by one: a fault that is easy to miss. The result may by chance still be a good table.
pub fn by_one(random: &mut Random, mut bytes: Vec<u8>) -> Vec<u8> {
    let (words, _) = bytes.as_chunks_mut::<4>();
    let word = &mut words[random.below(words.len())];
    let change = if random.percent(50) { 1 } else { u32::MAX };
    *word = u32::from_le_bytes(*word).wrapping_add(change).to_le_bytes();
    bytes
}

/// Damages a few bytes, words or the length. The result may by chance still be a good table.
pub fn anyhow(random: &mut Random, mut bytes: Vec<u8>) -> Vec<u8> {
    for _ in 0..random.between(1, 3) {
        match random.below(6) {
            0 => bytes.truncate(random.between(0, bytes.len())),
            1 => bytes.push(random.next() as u8),
            2 => put_word(random, &mut bytes, 28),
            _ => {
                let all = bytes.len();
                put_word(random, &mut bytes, all);
            }
        }
    }
    bytes
}

/// Writes a small number, or now and then any, over one of the words that begin below the limit, or a byte where no word is left.
fn put_word(random: &mut Random, bytes: &mut [u8], limit: usize) {
    let limit = limit.min(bytes.len());
    if limit == 0 {
        return;
    }
    let at = random.below(limit);
    let number = if random.percent(20) {
        random.next() as u32
    } else {
        random.below(70) as u32
    };
    match bytes.get_mut(at / 4 * 4..at / 4 * 4 + 4) {
        Some(word) if random.percent(70) => word.copy_from_slice(&number.to_le_bytes()),
        _ => bytes[at] = number as u8,
    }
}
