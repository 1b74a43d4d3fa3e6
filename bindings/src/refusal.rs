//! A refusal, and the refusal list in words.
use crate::number::*;
use std::error::Error;
use std::fmt::{self, Display, Formatter};

/// A line of the refusal list: its number, and its place, or 0 where none is named. Displayed as one line:
///
/// ```
/// let refusal = lasso::Refusal { number: 7, place: 2 };
/// assert_eq!(refusal.to_string(), "refused 7 2: an empty row; first such state 2");
/// ```
#[derive(Clone, Copy, Debug, PartialEq, Eq, Hash)]
pub struct Refusal {
    pub number: u32,
    pub place: usize,
}

/// What the place of a refusal is.
#[derive(Clone, Copy, Debug, PartialEq, Eq)]
pub enum Place {
    /// None is named; the place is 0.
    Unnamed,
    /// The first index in a section of the table.
    Index,
    /// The first state.
    State,
}

/// A line of the refusal list, as said for every table.
#[derive(Clone, Copy, Debug, PartialEq, Eq)]
pub struct Line {
    pub number: u32,
    pub words: &'static str,
    pub place: Place,
}

/// The refusal list in its order: where more than one line applies, the first is given. A line is found by its number, not by its place in the list.
pub const REFUSALS: &[Line] = &[
    line(TOO_SHORT, "fewer than 28 bytes", Place::Unnamed),
    line(WRONG_KIND, "kind is not 1", Place::Unnamed),
    line(WRONG_STATES, "n, the number of states, is outside 1 to 64", Place::Unnamed),
    line(WRONG_EDGES, "e, the number of edges, is outside 1 to 1,024", Place::Unnamed),
    line(WRONG_SETS, "m, the number of fairness sets, is above 4", Place::Unnamed),
    line(WRONG_LAYOUT, "an offset or the length is not the computed one", Place::Unnamed),
    line(
        WRONG_ROW_START,
        "a row start is wrong: first not 0, below the one before, above e, or last not e",
        Place::Index,
    ),
    line(
        WRONG_TARGET,
        "a target is n or more, or not above the one before it in its row",
        Place::Index,
    ),
    line(EMPTY_ROW, "an empty row", Place::State),
    line(WRONG_MARK, "a mark bit that must be clear is set", Place::State),
    line(SHORT_WORKSPACE, "search: fewer than 2S workspace words", Place::Unnamed),
    line(SHORT_REPORT, "search: fewer than S report words", Place::Unnamed),
    line(SHORT_OUTPUT, "translate: output shorter than 32 + 5S + 4E bytes", Place::Unnamed),
    line(WRONG_RECORD, "step: s or s' not below n, t above n, or v not below 2^m", Place::Unnamed),
    line(NO_EDGE, "step: s to s' is not an edge", Place::Unnamed),
];

/// The words for a number that the list does not have.
pub const NO_LINE: &str = "no line of the refusal list";

const fn line(number: u32, words: &'static str, place: Place) -> Line {
    Line { number, words, place }
}

impl Place {
    /// Empty where no place is named.
    pub fn words(self) -> &'static str {
        match self {
            Place::Unnamed => "",
            Place::Index => "first such index",
            Place::State => "first such state",
        }
    }
}

impl Refusal {
    /// The line of the list that has this number.
    pub fn line(&self) -> Option<&'static Line> {
        REFUSALS.iter().find(|line| line.number == self.number)
    }
}

impl Display for Refusal {
    fn fmt(&self, to: &mut Formatter) -> fmt::Result {
        let Refusal { number, place } = self;
        let (words, place_words) = self.line().map_or((NO_LINE, ""), |line| (line.words, line.place.words()));
        write!(to, "refused {number} {place}: {words}")?;
        if place_words.is_empty() {
            return Ok(());
        }
        write!(to, "; {place_words} {place}")
    }
}

impl Error for Refusal {}
