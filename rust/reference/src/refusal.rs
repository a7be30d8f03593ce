//! Refusals (document 01, "Who can cause which refusal").

/// "A refusal yields number, place and zeros; a place not named is 0."
#[derive(Clone, Copy, Debug, PartialEq, Eq)]
pub struct Refusal {
    pub number: u8,
    pub place: usize,
}

impl Refusal {
    /// A refusal of the field, or of the longword of a row, that starts at `place`.
    pub fn at(number: u8, place: usize) -> Refusal {
        Refusal { number, place }
    }

    /// A refusal whose place is not named.
    pub fn plain(number: u8) -> Refusal {
        Refusal { number, place: 0 }
    }
}
