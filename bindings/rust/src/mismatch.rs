//! The first place of a text that isn't as in its form.
use crate::ffi;

/// The first place where a text differs from its form.
#[derive(Clone, Copy, Debug, PartialEq, Eq)]
pub struct Mismatch {
    /// How many bytes come before it.
    pub offset: usize,
    /// The character found there.
    pub found: char,
    /// The character that the form has there.
    pub expected: char,
}

impl Mismatch {
    pub(crate) fn of(reported: ffi::Mismatch) -> Option<Mismatch> {
        let character = |code| char::from_u32(code).unwrap_or(char::REPLACEMENT_CHARACTER);
        reported.exists.then(|| Mismatch {
            offset: reported.offset,
            found: character(reported.found),
            expected: character(reported.expected),
        })
    }
}
