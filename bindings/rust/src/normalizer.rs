//! Normalizers to the four forms.
use crate::error::Error;
use crate::ffi;
use crate::handle::{Borrowed, Data, Form};
use crate::iterators::{Composition, Decomposition, Pieces};
use crate::mismatch::Mismatch;
use crate::sink::{self, Write16};
use std::borrow::Cow;
use std::fmt;

/// Defines an owned and a borrowed normalizer to one of two forms.
macro_rules! normalizers {
    (
        $forms:literal: $owned:ident, $borrowed:ident, $iterator:ident;
        $canonical:expr, $new:ident, $try_new:ident;
        $compatibility:expr, $new_compatibility:ident, $try_new_compatibility:ident;
    ) => {
        #[doc = concat!("A normalizer to ", $forms, " that owns its data, or uses those of this crate.")]
        ///
        /// A clone shares the data.
        #[derive(Clone, Debug)]
        pub struct $owned {
            data: Data,
            form: Form,
        }

        impl $owned {
            #[doc = concat!("Returns [`", stringify!($borrowed), "::", stringify!($new), "`].")]
            pub const fn $new() -> $borrowed<'static> {
                $borrowed::$new()
            }

            #[doc = concat!("Returns [`", stringify!($borrowed), "::", stringify!($new_compatibility), "`].")]
            pub const fn $new_compatibility() -> $borrowed<'static> {
                $borrowed::$new_compatibility()
            }

            /// Returns the normalizer to the canonical form, by the bytes of a file of prepared data.
            ///
            /// # Errors
            /// What is wrong with the file.
            pub fn $try_new(prepared: &[u8]) -> Result<Self, Error> {
                let (data, form) = (Data::prepared(prepared)?, $canonical);
                Ok($owned { data, form })
            }

            /// Returns the normalizer to the compatibility form, by the bytes of a file of prepared data.
            ///
            /// # Errors
            /// What is wrong with the file.
            pub fn $try_new_compatibility(prepared: &[u8]) -> Result<Self, Error> {
                let (data, form) = (Data::prepared(prepared)?, $compatibility);
                Ok($owned { data, form })
            }

            /// Returns this normalizer, borrowed.
            pub fn as_borrowed(&self) -> $borrowed<'_> {
                $borrowed::over(self.data.as_borrowed(), self.form)
            }
        }

        #[doc = concat!("A normalizer to ", $forms, " that borrows its data, or uses those of this crate.")]
        #[derive(Clone, Copy, Debug)]
        pub struct $borrowed<'data> {
            data: Borrowed<'data>,
            form: Form,
        }

        impl $borrowed<'static> {
            /// Returns the normalizer to the canonical form, over the data of this crate.
            pub const fn $new() -> Self {
                Self::over(Borrowed::Own, $canonical)
            }

            /// Returns the normalizer to the compatibility form, over the data of this crate.
            pub const fn $new_compatibility() -> Self {
                Self::over(Borrowed::Own, $compatibility)
            }

            /// Returns this normalizer as an owned one.
            pub fn static_to_owned(self) -> $owned {
                let (data, form) = (self.data.to_owned(), self.form);
                $owned { data, form }
            }
        }

        impl<'data> $borrowed<'data> {
            pub(crate) const fn over(data: Borrowed<'data>, form: Form) -> Self {
                $borrowed { data, form }
            }

            /// Returns the characters of the form of a text, lazily. The iterator reads 64 characters at a time, and
            /// the others up to where a text may be divided.
            pub fn normalize_iter<I: Iterator<Item = char>>(&self, iter: I) -> $iterator<'data, I> {
                $iterator(Pieces::new(self.data, self.form, iter))
            }

            /// Returns the form of a text, borrowed if the text is already normalized.
            pub fn normalize<'t>(&self, text: &'t str) -> Cow<'t, str> {
                self.normalize_utf8(text.as_bytes())
            }

            /// Returns the form of what bytes decode to, borrowed if they are well-formed and already normalized. Each
            /// maximal ill-formed subpart reads as U+FFFD.
            pub fn normalize_utf8<'t>(&self, bytes: &'t [u8]) -> Cow<'t, str> {
                match self.data.with(|handle| handle.form_of(self.form, bytes)) {
                    // Safety: what is normalized is well-formed UTF-8.
                    None => Cow::Borrowed(unsafe { std::str::from_utf8_unchecked(bytes) }),
                    // Safety: a form is well-formed UTF-8.
                    Some(form) => Cow::Owned(unsafe { String::from_utf8_unchecked(form) }),
                }
            }

            /// Returns the form of what 16-bit units decode to, borrowed if they are well-formed and already
            /// normalized. Each unpaired surrogate reads as U+FFFD.
            pub fn normalize_utf16<'t>(&self, units: &'t [u16]) -> Cow<'t, [u16]> {
                match self.data.with(|handle| handle.form_of(self.form, units)) {
                    None => Cow::Borrowed(units),
                    Some(form) => Cow::Owned(form),
                }
            }

            /// Writes the form of a text to a sink, piece by piece.
            ///
            /// # Errors
            /// That of the sink. What it took before is a beginning of the form.
            pub fn normalize_to<W: fmt::Write + ?Sized>(&self, text: &str, sink: &mut W) -> fmt::Result {
                sink::write_utf8(self.data, self.form, text.as_bytes(), sink)
            }

            /// Writes to a sink, piece by piece, the form of what bytes decode to.
            ///
            /// # Errors
            /// That of the sink. What it took before is a beginning of the form.
            pub fn normalize_utf8_to<W: fmt::Write + ?Sized>(&self, bytes: &[u8], sink: &mut W) -> fmt::Result {
                sink::write_utf8(self.data, self.form, bytes, sink)
            }

            /// Writes to a sink, piece by piece, the form of what 16-bit units decode to.
            ///
            /// # Errors
            /// That of the sink. What it took before is a beginning of the form.
            pub fn normalize_utf16_to<W: Write16 + ?Sized>(&self, units: &[u16], sink: &mut W) -> fmt::Result {
                sink::write_utf16(self.data, self.form, units, sink)
            }

            /// Returns whether a text is already normalized.
            pub fn is_normalized(&self, text: &str) -> bool {
                self.is_normalized_utf8(text.as_bytes())
            }

            /// Returns whether bytes are well-formed and already normalized.
            pub fn is_normalized_utf8(&self, bytes: &[u8]) -> bool {
                let call = ffi::icu_normalizer_is_normalized_utf8;
                self.data.with(|handle| handle.reported(call, self.form, bytes))
            }

            /// Returns whether 16-bit units are well-formed and already normalized.
            pub fn is_normalized_utf16(&self, units: &[u16]) -> bool {
                let call = ffi::icu_normalizer_is_normalized_utf16;
                self.data.with(|handle| handle.reported(call, self.form, units))
            }

            /// Returns the longest beginning that the form begins with, followed by the form of the rest, and the rest.
            pub fn split_normalized<'t>(&self, text: &'t str) -> (&'t str, &'t str) {
                text.split_at(self.data.with(|handle| handle.cut(self.form, text.as_bytes())))
            }

            /// Returns the same of bytes, whose beginning is well-formed.
            pub fn split_normalized_utf8<'t>(&self, bytes: &'t [u8]) -> (&'t str, &'t [u8]) {
                let (normalized, rest) = bytes.split_at(self.data.with(|handle| handle.cut(self.form, bytes)));
                // Safety: what is normalized is well-formed UTF-8.
                (unsafe { std::str::from_utf8_unchecked(normalized) }, rest)
            }

            /// Returns the same of 16-bit units.
            pub fn split_normalized_utf16<'t>(&self, units: &'t [u16]) -> (&'t [u16], &'t [u16]) {
                units.split_at(self.data.with(|handle| handle.cut(self.form, units)))
            }

            /// Returns the first place where a text differs from its form.
            pub fn first_mismatch(&self, text: &str) -> Option<Mismatch> {
                self.first_mismatch_utf8(text.as_bytes())
            }

            /// Returns the first place where bytes are ill-formed or differ from their form. At an ill-formed sequence
            /// U+FFFD is found.
            pub fn first_mismatch_utf8(&self, bytes: &[u8]) -> Option<Mismatch> {
                let call = ffi::icu_normalizer_first_mismatch_utf8;
                Mismatch::of(self.data.with(|handle| handle.reported(call, self.form, bytes)))
            }
        }
    };
}

normalizers! {
    "NFC or NFKC": ComposingNormalizer, ComposingNormalizerBorrowed, Composition;
    Form::Nfc, new_nfc, try_new_nfc_prepared;
    Form::Nfkc, new_nfkc, try_new_nfkc_prepared;
}

normalizers! {
    "NFD or NFKD": DecomposingNormalizer, DecomposingNormalizerBorrowed, Decomposition;
    Form::Nfd, new_nfd, try_new_nfd_prepared;
    Form::Nfkd, new_nfkd, try_new_nfkd_prepared;
}
