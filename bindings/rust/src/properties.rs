//! The properties of characters by which texts are normalized: composites, canonical mappings and combining classes.
//!
//! A program that normalizes text needs a normalizer instead. These are for shapers and the like.
use crate::error::Error;
use crate::handle::{Borrowed, Data};

/// Defines what looks characters up, owned and borrowed.
macro_rules! lookups {
    ($words:literal, $owned:ident, $borrowed:ident) => {
        #[doc = concat!($words, ", with its own data or those of this crate.")]
        ///
        /// A clone shares the data.
        #[derive(Clone, Debug)]
        pub struct $owned(Data);

        impl $owned {
            #[doc = concat!("Returns [`", stringify!($borrowed), "::new`].")]
            #[allow(clippy::new_ret_no_self)]
            pub const fn new() -> $borrowed<'static> {
                $borrowed::new()
            }

            /// Returns it by the bytes of a file of prepared data.
            ///
            /// # Errors
            /// What is wrong with the file.
            pub fn try_new_prepared(prepared: &[u8]) -> Result<Self, Error> {
                Data::prepared(prepared).map($owned)
            }

            /// Returns this, borrowed.
            pub fn as_borrowed(&self) -> $borrowed<'_> {
                $borrowed(self.0.as_borrowed())
            }
        }

        impl Default for $owned {
            fn default() -> Self {
                Self::new().static_to_owned()
            }
        }

        #[doc = concat!($words, ", over borrowed data or those of this crate.")]
        #[derive(Clone, Copy, Debug)]
        pub struct $borrowed<'data>(pub(crate) Borrowed<'data>);

        impl $borrowed<'static> {
            /// Returns it over the data of this crate.
            pub const fn new() -> Self {
                $borrowed(Borrowed::Own)
            }

            /// Returns this as an owned one.
            pub fn static_to_owned(self) -> $owned {
                $owned(self.0.to_owned())
            }
        }

        impl Default for $borrowed<'static> {
            fn default() -> Self {
                Self::new()
            }
        }
    };
}

lookups!(
    "What pairs of characters compose to",
    CanonicalComposition,
    CanonicalCompositionBorrowed
);

impl CanonicalCompositionBorrowed<'_> {
    /// Returns what two characters compose to, one after the other: their primary composite or Hangul syllable.
    ///
    /// ```
    /// use icu_normalizer_proved::properties::CanonicalCompositionBorrowed;
    ///
    /// let composition = CanonicalCompositionBorrowed::new();
    /// assert_eq!(composition.compose('u', '\u{308}'), Some('ü'));
    /// assert_eq!(composition.compose('u', 'v'), None);
    /// ```
    pub fn compose(self, starter: char, second: char) -> Option<char> {
        self.0.with(|handle| handle.compose(starter, second))
    }
}

/// A canonical mapping, one step that isn't repeated.
#[derive(Clone, Copy, Debug, PartialEq, Eq)]
pub enum Decomposed {
    /// The character has no canonical mapping.
    Default,
    /// It maps to one character.
    Singleton(char),
    /// It maps to two characters.
    Expansion(char, char),
}

lookups!(
    "The canonical mappings of characters",
    CanonicalDecomposition,
    CanonicalDecompositionBorrowed
);

impl CanonicalDecompositionBorrowed<'_> {
    /// Returns the canonical mapping of a character. A Hangul syllable of three jamo maps to one of two and the third.
    ///
    /// ```
    /// use icu_normalizer_proved::properties::{CanonicalDecompositionBorrowed, Decomposed};
    ///
    /// let decomposition = CanonicalDecompositionBorrowed::new();
    /// assert_eq!(decomposition.decompose('ǘ'), Decomposed::Expansion('ü', '\u{301}'));
    /// assert_eq!(decomposition.decompose('\u{212A}'), Decomposed::Singleton('K'));
    /// assert_eq!(decomposition.decompose('u'), Decomposed::Default);
    /// ```
    pub fn decompose(&self, c: char) -> Decomposed {
        match self.0.with(|handle| handle.decompose(c)) {
            (None, _) => Decomposed::Default,
            (Some(only), None) => Decomposed::Singleton(only),
            (Some(first), Some(second)) => Decomposed::Expansion(first, second),
        }
    }
}

lookups!(
    "The canonical combining classes of characters",
    CanonicalCombiningClassMap,
    CanonicalCombiningClassMapBorrowed
);

impl CanonicalCombiningClassMapBorrowed<'_> {
    /// Returns the class of a character: 0 of a starter.
    ///
    /// ```
    /// use icu_normalizer_proved::properties::CanonicalCombiningClassMapBorrowed;
    ///
    /// let classes = CanonicalCombiningClassMapBorrowed::new();
    /// assert_eq!(classes.get_u8('\u{308}'), 230);
    /// assert_eq!(classes.get32_u8(0xD800), 0);
    /// ```
    pub fn get_u8(&self, c: char) -> u8 {
        self.0.with(|handle| handle.combining_class(c))
    }

    /// Returns the class of the character with a number, or 0 if there is none.
    pub fn get32_u8(&self, c: u32) -> u8 {
        char::from_u32(c).map_or(0, |c| self.get_u8(c))
    }
}
