//! The lines of the text form: comments and blank lines dropped, the rest cut into words. Also the error that names a line.
use std::fmt::Display;

/// Some editors put it before a text.
const BYTE_ORDER_MARK: char = '\u{feff}';

/// What is wrong with a text, and on which line, counted from 1.
#[derive(Clone, Debug, PartialEq, Eq)]
pub struct Error {
    pub line: usize,
    pub message: String,
}

impl Error {
    pub fn new(line: usize, found: impl Display, expected: impl Display) -> Error {
        Error {
            line,
            message: format!("found {found}, expected {expected}"),
        }
    }
}

/// A line that has at least one word.
#[derive(Clone, Debug, PartialEq, Eq)]
pub struct Line<'a> {
    pub number: usize,
    pub words: Vec<&'a str>,
}

impl Line<'_> {
    pub fn error(&self, found: impl Display, expected: impl Display) -> Error {
        Error::new(self.number, found, expected)
    }
}

pub fn lines(bytes: &[u8]) -> Result<Vec<Line<'_>>, Error> {
    if let Some(offset) = bytes.iter().position(|byte| *byte == 0) {
        return Err(Error::new(line_at(bytes, offset), "a zero byte", "text (is this a table file?)"));
    }
    let text = match std::str::from_utf8(bytes) {
        Ok(text) => text,
        Err(error) => {
            return Err(Error::new(
                line_at(bytes, error.valid_up_to()),
                "bytes that are not UTF-8",
                "text (a table file has a zero byte, and this has none)",
            ))
        }
    };
    let text = text.strip_prefix(BYTE_ORDER_MARK).unwrap_or(text);
    let numbered = (1..).zip(text.lines()).map(|(number, line)| Line { number, words: words(line) });
    Ok(numbered.filter(|line| !line.words.is_empty()).collect())
}

/// The number of the line in which the byte at this offset stands, or would stand.
pub fn line_at(bytes: &[u8], offset: usize) -> usize {
    1 + bytes[..offset].iter().filter(|byte| **byte == b'\n').count()
}

fn words(line: &str) -> Vec<&str> {
    let before_comment = line.split('#').next().unwrap_or("");
    before_comment.split_whitespace().collect()
}

#[cfg(test)]
mod tests {
    use super::*;

    #[test]
    fn comments_and_blank_lines_are_dropped_and_counted() {
        let read = lines(b"# a\n\n  b  c# d\r\n\t\ne\n").unwrap();
        assert_eq!(
            read,
            [
                Line {
                    number: 3,
                    words: vec!["b", "c"]
                },
                Line { number: 5, words: vec!["e"] }
            ]
        );
    }

    #[test]
    fn a_byte_order_mark_is_skipped_at_the_start_alone() {
        let words = |bytes| lines(bytes).unwrap().iter().map(|line| line.words.join(" ")).collect::<Vec<_>>();
        assert_eq!(words(b"\xef\xbb\xbfa b\nc"), ["a b", "c"]);
        assert_eq!(words(b"a\n\xef\xbb\xbfc"), ["a", "\u{feff}c"]);
    }

    #[test]
    fn what_is_no_text_is_an_error_on_its_line() {
        let zero = lines(b"a\nb\0\n").unwrap_err();
        assert_eq!(
            (zero.line, zero.message.as_str()),
            (2, "found a zero byte, expected text (is this a table file?)")
        );
        let latin = lines(b"a\n\n# \xe9\n").unwrap_err();
        assert_eq!(
            (latin.line, latin.message.as_str()),
            (
                3,
                "found bytes that are not UTF-8, expected text (a table file has a zero byte, and this has none)"
            )
        );
    }
}
