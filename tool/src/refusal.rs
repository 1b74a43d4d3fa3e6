//! A refusal in words, one line. The words are the library's own.
use lasso::Refusal;

pub fn in_words(refusal: Refusal) -> String {
    refusal.to_string()
}

#[cfg(test)]
mod tests {
    use super::*;

    #[test]
    fn number_place_and_words() {
        let said = |number, place| in_words(Refusal { number, place });
        assert_eq!(said(1, 0), "refused 1 0: fewer than 28 bytes");
        assert_eq!(
            said(6, 4),
            "refused 6 4: a target is n or more, or not above the one before it in its row; first such index 4"
        );
    }
}
