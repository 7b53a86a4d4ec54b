//! The units of UTF-8 and of UTF-16.
use crate::ffi::{self, Reports, Writes};

/// A unit, with the calls for texts of it.
pub(crate) trait Unit: Copy + 'static {
    const NORMALIZE: Writes<Self>;
    const SPLIT: Reports<Self, usize>;

    /// The well-formed character that units begin with. What comes before it decodes apart.
    fn first(units: &[Self]) -> Option<char>;
}

impl Unit for u8 {
    const NORMALIZE: Writes<u8> = ffi::icu_normalizer_normalize_utf8;
    const SPLIT: Reports<u8, usize> = ffi::icu_normalizer_split_utf8;

    fn first(bytes: &[u8]) -> Option<char> {
        let width = match bytes.first()? {
            0..=0x7F => 1,
            0xC2..=0xDF => 2,
            0xE0..=0xEF => 3,
            0xF0..=0xF4 => 4,
            _ => return None,
        };
        std::str::from_utf8(bytes.get(..width)?).ok()?.chars().next()
    }
}

impl Unit for u16 {
    const NORMALIZE: Writes<u16> = ffi::icu_normalizer_normalize_utf16;
    const SPLIT: Reports<u16, usize> = ffi::icu_normalizer_split_utf16;

    fn first(units: &[u16]) -> Option<char> {
        char::decode_utf16(units.iter().copied()).next()?.ok()
    }
}
