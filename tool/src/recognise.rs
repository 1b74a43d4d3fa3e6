//! Tells a table file from the text form, by content. Reads docs/RULES.md, "The table file".
//!
//! A table file has a zero byte: its kind is 1 or 2, in four bytes. The text form has none, for a zero byte is an error there. So a file with a zero
//! byte is taken for a table file, and any other file for text. A file that is neither fails as what it was taken for.

pub fn is_table_file(bytes: &[u8]) -> bool {
    bytes.contains(&0)
}

#[cfg(test)]
mod tests {
    use super::*;

    #[test]
    fn a_zero_byte_tells() {
        assert!(is_table_file(&[1, 0, 0, 0]));
        assert!(!is_table_file(b"state 0 -> 0\n"));
        assert!(!is_table_file(b""));
    }
}
