//! A refusal as text and as an error.
use lasso::Refusal;
use std::error::Error;

fn said(number: u32, place: usize) -> String {
    Refusal { number, place }.to_string()
}

#[test]
fn number_place_and_words() {
    assert_eq!(said(1, 0), "refused 1 0: fewer than 28 bytes");
    assert_eq!(
        said(6, 4),
        "refused 6 4: a target is n or more, or not above the one before it in its row; first such index 4"
    );
    assert_eq!(said(7, 2), "refused 7 2: an empty row; first such state 2");
    assert_eq!(said(13, 0), "refused 13 0: step: s to s' is not an edge");
}

#[test]
fn a_number_outside_the_list_is_said_too() {
    assert_eq!(said(0, 0), "refused 0 0: no line of the refusal list");
    assert_eq!(said(u32::MAX, 1), "refused 4294967295 1: no line of the refusal list");
}

#[test]
fn a_refusal_is_an_error() {
    fn opened() -> Result<lasso::Table, Box<dyn Error>> {
        Ok(lasso::open(&[])?)
    }
    let error = opened().unwrap_err();
    assert_eq!(error.to_string(), "refused 1 0: fewer than 28 bytes");
    assert_eq!(error.downcast_ref(), Some(&Refusal { number: 1, place: 0 }));
}
