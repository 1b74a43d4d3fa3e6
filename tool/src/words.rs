//! The words of the text form: its own words, numbers and names, and how a word is quoted in an error.

pub const SETS: &str = "sets";
pub const STATE: &str = "state";
pub const START: &str = "start";
pub const GOAL: &str = "goal";
pub const IN: &str = "in";
pub const ARROW: &str = "->";

/// Characters of a word that an error shows.
const SHOWN: usize = 40;

/// The number that a word of digits stands for. One too large for the machine is above every limit here, and stays so.
pub fn number_of(word: &str) -> Option<usize> {
    let digits = !word.is_empty() && word.bytes().all(|byte| byte.is_ascii_digit());
    digits.then(|| word.parse().unwrap_or(usize::MAX))
}

/// Where the word may not be a name: what is expected in its place.
///
/// The form's own words are no names. Otherwise `state start -> 0` would be a state named "start" without the mark. Nor is a word that begins with
/// '-': `sets -1` is a slip for a count, and `-` or `-->` one for the arrow.
pub fn why_no_name(word: &str) -> Option<&'static str> {
    let spelled = word.chars().all(|c| c.is_ascii_alphanumeric() || "_.-".contains(c));
    if !spelled || word.starts_with(|c: char| c.is_ascii_digit() || c == '-') {
        Some("a name of letters, digits, '_', '.' and '-' that does not begin with a digit or '-'")
    } else if [SETS, STATE, START, GOAL, IN].contains(&word) {
        Some("a name other than sets, state, start, goal and in")
    } else {
        None
    }
}

/// The word in quotes, on one line and not too long.
pub fn quoted(word: &str) -> String {
    format!("\"{}\"", cut(word))
}

/// The word on one line and not too long.
pub fn cut(word: &str) -> String {
    let shown: String = word.chars().take(SHOWN).flat_map(char::escape_debug).collect();
    let rest = if word.chars().count() > SHOWN { ".." } else { "" };
    shown + rest
}

#[cfg(test)]
mod tests {
    use super::*;

    #[test]
    fn numbers_are_digits_only() {
        assert_eq!(number_of("0"), Some(0));
        assert_eq!(number_of("63"), Some(63));
        assert_eq!(number_of("99999999999999999999999"), Some(usize::MAX));
        for word in ["", "+1", "-1", "1a", "a", "1.0"] {
            assert_eq!(number_of(word), None, "{word}");
        }
    }

    #[test]
    fn names_are_spelled_so() {
        for word in ["a", "_", "a_grant.b_asks", "x-1", "a-", "Start"] {
            assert_eq!(why_no_name(word), None, "{word}");
        }
        for word in [
            "1a", "7", "->", "-", "-1", "-a", "--", "a,b", "a\"b", "é", "sets", "state", "start", "goal", "in",
        ] {
            assert!(why_no_name(word).is_some(), "{word}");
        }
    }

    #[test]
    fn quoted_words_are_short_and_on_one_line() {
        assert_eq!(quoted("a\"\\\u{7}"), "\"a\\\"\\\\\\u{7}\"");
        assert_eq!(quoted(&"x".repeat(41)), format!("\"{}..\"", "x".repeat(40)));
    }
}
