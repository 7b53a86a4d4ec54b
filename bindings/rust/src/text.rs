//! Forms as methods of texts.
use crate::{ComposingNormalizerBorrowed, Composition, DecomposingNormalizerBorrowed, Decomposition};
use std::option;
use std::str::Chars;

/// Texts, with methods for their forms over the data of this crate, as the crate `unicode-normalization` names them.
///
/// ```
/// use icu_normalizer_proved::UnicodeNormalization;
///
/// assert_eq!("u\u{308}".nfc().collect::<String>(), "ü");
/// assert!('ü'.nfd().eq(['u', '\u{308}']));
/// assert!("ﬁ".chars().rev().nfkc().eq(['f', 'i']));
/// ```
pub trait UnicodeNormalization<I: Iterator<Item = char>>: Sized {
    /// Returns the characters of this text.
    fn characters(self) -> I;

    /// Returns the characters of this text in NFD.
    fn nfd(self) -> Decomposition<'static, I> {
        DecomposingNormalizerBorrowed::new_nfd().normalize_iter(self.characters())
    }

    /// Returns the characters of this text in NFKD.
    fn nfkd(self) -> Decomposition<'static, I> {
        DecomposingNormalizerBorrowed::new_nfkd().normalize_iter(self.characters())
    }

    /// Returns the characters of this text in NFC.
    fn nfc(self) -> Composition<'static, I> {
        ComposingNormalizerBorrowed::new_nfc().normalize_iter(self.characters())
    }

    /// Returns the characters of this text in NFKC.
    fn nfkc(self) -> Composition<'static, I> {
        ComposingNormalizerBorrowed::new_nfkc().normalize_iter(self.characters())
    }
}

impl<'a> UnicodeNormalization<Chars<'a>> for &'a str {
    fn characters(self) -> Chars<'a> {
        self.chars()
    }
}

impl UnicodeNormalization<option::IntoIter<char>> for char {
    fn characters(self) -> option::IntoIter<char> {
        Some(self).into_iter()
    }
}

impl<I: Iterator<Item = char>> UnicodeNormalization<I> for I {
    fn characters(self) -> I {
        self
    }
}
