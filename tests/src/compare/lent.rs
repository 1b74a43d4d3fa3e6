//! A buffer to lend. It is filled with numbers that are not 0, and has some before and after the lent part that nobody may touch.

use crate::draw::random::Random;
use std::fmt::Debug;

const MARGIN: usize = 8;

pub struct Lent<T> {
    before: Vec<T>,
    now: Vec<T>,
    /// How many stand before the lent part; for bytes this also moves it off the even addresses.
    skip: usize,
}

/// The first place of the lent part that is not as it should be. Places before the lent part are negative.
#[derive(Debug, PartialEq)]
pub struct Wrong<T> {
    pub place: isize,
    pub is: T,
    pub should_be: T,
}

impl<T: Copy + PartialEq + Debug> Lent<T> {
    /// Room for lent parts up to the longest.
    pub fn new(random: &mut Random, longest: usize, mut draw: impl FnMut(&mut Random) -> T) -> Lent<T> {
        let skip = random.below(MARGIN);
        let before: Vec<T> = (0..skip + longest + MARGIN).map(|_| draw(random)).collect();
        Lent {
            now: before.clone(),
            before,
            skip,
        }
    }

    pub fn lend(&mut self, length: usize) -> &mut [T] {
        &mut self.now[self.skip..self.skip + length]
    }

    /// Whether the lent part now begins as expected and all else is as it was. The buffer is then made as it was.
    pub fn take_back(&mut self, expected: &[T]) -> Option<Wrong<T>> {
        let end = self.skip + expected.len();
        let (now, before) = (&self.now, &self.before);
        let unchanged = now[..self.skip] == before[..self.skip] && now[end..] == before[end..];
        let wrong = if unchanged && now[self.skip..end] == *expected {
            None
        } else {
            self.first_wrong(expected)
        };
        if wrong.is_some() {
            self.now.copy_from_slice(&self.before);
        } else {
            self.now[self.skip..end].copy_from_slice(&self.before[self.skip..end]);
        }
        wrong
    }

    fn first_wrong(&self, expected: &[T]) -> Option<Wrong<T>> {
        let should_be = |i: usize| {
            if i < self.skip {
                self.before[i]
            } else {
                *expected.get(i - self.skip).unwrap_or(&self.before[i])
            }
        };
        let i = (0..self.now.len()).find(|&i| self.now[i] != should_be(i))?;
        Some(Wrong {
            place: i as isize - self.skip as isize,
            is: self.now[i],
            should_be: should_be(i),
        })
    }
}

/// Words that are not 0: any, or, for a whole buffer, small ones that could be taken for slots.
pub fn words(random: &mut Random, longest: usize) -> Lent<u32> {
    let bound = if random.chance(50) { u32::MAX as usize } else { longest.max(1) };
    Lent::new(random, longest, |random| 1 + random.below(bound) as u32)
}

pub fn bytes(random: &mut Random, longest: usize) -> Lent<u8> {
    let (mut word, mut left) = (0, 0);
    Lent::new(random, longest, |random| {
        if left == 0 {
            (word, left) = (random.word(), 8);
        }
        left -= 1;
        word = word.rotate_right(8);
        (word as u8).max(1)
    })
}
