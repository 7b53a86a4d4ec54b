//! Unicode normal forms (Unicode Standard Annex #15) by a proved library, with the names of the crate
//! [`icu_normalizer`](https://docs.rs/icu_normalizer).
//!
//! ```
//! use icu_normalizer_proved::{ComposingNormalizerBorrowed, DecomposingNormalizerBorrowed};
//!
//! let nfc = ComposingNormalizerBorrowed::new_nfc();
//! assert_eq!(nfc.normalize("a\u{0308}"), "ä");
//! assert!(nfc.is_normalized("ä"));
//! assert_eq!(nfc.split_normalized("xya\u{0308}"), ("xy", "a\u{0308}"));
//!
//! let nfkd = DecomposingNormalizerBorrowed::new_nfkd();
//! assert_eq!(nfkd.normalize("ﬁ"), "fi");
//! ```
//!
//! Characters come lazily, from any iterator, and a sink gets the form piece by piece, while it is made:
//!
//! ```
//! use icu_normalizer_proved::{ComposingNormalizerBorrowed, UnicodeNormalization};
//!
//! # let mut sink = String::new();
//! let nfc = ComposingNormalizerBorrowed::new_nfc();
//! assert!("a\u{0308}".nfc().eq(['ä']));
//! assert!(nfc.normalize_iter(['a', '\u{0308}'].into_iter()).eq(['ä']));
//! nfc.normalize_to("a\u{0308}", &mut sink)?;
//! # assert_eq!(sink, "ä");
//! # Ok::<(), std::fmt::Error>(())
//! ```
//!
//! The normalizers of the library are proved; this crate, which calls them through C, is tested. All types are `Send`
//! and `Sync`. A normalizer over the data of this crate uses a handle of the thread that calls it. One over other data
//! locks its handle for a call: give each thread a clone, which shares the data and takes less than a microsecond.
//!
//! # Panics
//! If an allocation fails, the calls end the process, as those of `String` do. The first call over the data of
//! this crate panics if those are wrong, which a crate that passed its tests never does.
#![deny(missing_docs, unsafe_op_in_unsafe_fn)]

mod error;
mod ffi;
mod handle;
mod iterators;
mod mismatch;
mod normalizer;
mod normalizers;
pub mod properties;
mod sink;
mod text;
mod unit;
pub mod uts46;

pub use error::{reason, Error};
pub use iterators::{Composition, Decomposition};
pub use mismatch::Mismatch;
pub use normalizer::{
    ComposingNormalizer, ComposingNormalizerBorrowed, DecomposingNormalizer, DecomposingNormalizerBorrowed,
};
pub use normalizers::Normalizers;
pub use sink::Write16;
pub use text::UnicodeNormalization;

/// Returns the version of the library, as `[major, minor, patch]`.
pub fn version() -> [u8; 3] {
    // Safety: the call takes nothing.
    let [_, major, minor, patch] = unsafe { ffi::icu_normalizer_version() }.to_be_bytes();
    [major, minor, patch]
}

/// Returns the version of Unicode that the data of this crate state, as `[major, minor, update]`.
pub fn unicode_version() -> [u8; 3] {
    handle::Borrowed::Own.with(handle::OpenHandle::unicode_version)
}
