//! A line of "Refusal list": its number and its place. The reason is for counting only: it tells which of the reasons in one line applied.

#[derive(Clone, Copy, Debug, PartialEq, Eq)]
pub struct Refusal {
    pub number: u32,
    pub place: usize,
}

#[derive(Clone, Copy, Debug, PartialEq, Eq)]
pub struct Refused {
    pub refusal: Refusal,
    pub reason: &'static str,
}

/// The reason's name where one line has no reasons to tell apart.
pub const PLAIN: &str = "";
/// The reason's name where more than one reason of the line applied.
pub const SEVERAL: &str = "several";

pub fn refused(number: u32, place: usize, reason: &'static str) -> Refused {
    Refused {
        refusal: Refusal { number, place },
        reason,
    }
}

/// The one reason that applies, or "several", or nothing.
pub fn reason_among(reasons: &[(bool, &'static str)]) -> Option<&'static str> {
    let mut applying = reasons.iter().filter(|(applies, _)| *applies).map(|(_, name)| *name);
    let first = applying.next()?;
    Some(if applying.next().is_some() { SEVERAL } else { first })
}
