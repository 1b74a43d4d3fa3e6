//! The command line.

use std::path::PathBuf;
use std::str::FromStr;

pub const USAGE: &str = "usage: compare [--full] [--small N] [--large N] [--damaged N] [--seed S] [--programs FOLDER]";

/// How many tables of each kind each of the two seeds gives.
#[derive(Clone, Copy, Debug, PartialEq)]
pub struct Counts {
    pub small: u64,
    pub large: u64,
    pub damaged: u64,
}

const DEFAULT: Counts = Counts {
    small: 10_000,
    large: 2_000,
    damaged: 20_000,
};
/// Twice this, for the two seeds, makes 200,000 small, 20,000 larger and 200,000 damaged tables.
const FULL: Counts = Counts {
    small: 100_000,
    large: 10_000,
    damaged: 100_000,
};

#[derive(Debug, PartialEq)]
pub struct Arguments {
    pub counts: Counts,
    /// In place of a fresh one.
    pub seed: Option<u64>,
    /// Where the executables `verdict` and `translate` are.
    pub programs: Option<PathBuf>,
}

pub fn read(words: impl Iterator<Item = String>) -> Result<Arguments, String> {
    let words: Vec<String> = words.collect();
    let full = words.iter().any(|word| word == "--full");
    let mut arguments = Arguments {
        counts: if full { FULL } else { DEFAULT },
        seed: None,
        programs: None,
    };
    let mut left = words.into_iter();
    while let Some(word) = left.next() {
        match word.as_str() {
            "--full" => {}
            "--small" => arguments.counts.small = number(&word, left.next())?,
            "--large" => arguments.counts.large = number(&word, left.next())?,
            "--damaged" => arguments.counts.damaged = number(&word, left.next())?,
            "--seed" => arguments.seed = Some(number(&word, left.next())?),
            "--programs" => arguments.programs = Some(PathBuf::from(left.next().ok_or("--programs needs a folder")?)),
            _ => return Err(format!("what is `{word}`? {USAGE}")),
        }
    }
    Ok(arguments)
}

fn number<N: FromStr>(option: &str, word: Option<String>) -> Result<N, String> {
    let word = word.ok_or(format!("{option} needs a number"))?;
    word.parse().map_err(|_| format!("{option} needs a number, not `{word}`"))
}

#[cfg(test)]
mod tests {
    use super::*;

    fn read_words(words: &str) -> Result<Arguments, String> {
        read(words.split_whitespace().map(str::to_string))
    }

    #[test]
    fn options_in_any_order() {
        let arguments = read_words("--small 3 --full --seed 18446744073709551615 --programs here").unwrap();
        assert_eq!(arguments.counts, Counts { small: 3, ..FULL });
        assert_eq!((arguments.seed, arguments.programs), (Some(u64::MAX), Some(PathBuf::from("here"))));
    }

    #[test]
    fn wrong_words() {
        for words in ["--smal 3", "--small", "--small x", "--seed -1", "--programs", "x"] {
            assert!(read_words(words).is_err(), "{words}");
        }
    }
}
