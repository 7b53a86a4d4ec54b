//! Two Rust crates for speed.cpp: `icu_normalizer`, with the data compiled into it, and `unicode-normalization`.
//! UTF-8 is a `str` for both, which no call has to check, so these are the fastest calls that they have. A call writes to
//! a buffer that is kept for the next one, and returns how many units it wrote; a check returns 1 or 0.
use icu_normalizer::{ComposingNormalizer as Composing, DecomposingNormalizer as Decomposing};
use std::{ptr::addr_of_mut, slice::from_raw_parts, str::from_utf8_unchecked};
use unicode_normalization::{is_nfc, is_nfd, is_nfkc, is_nfkd, UnicodeNormalization};

macro_rules! with_normalizer {
    ($form:expr, $normalizer:ident => $call:expr) => {
        match $form {
            0 => { let $normalizer = Decomposing::new_nfd(); $call }
            1 => { let $normalizer = Composing::new_nfc(); $call }
            2 => { let $normalizer = Decomposing::new_nfkd(); $call }
            _ => { let $normalizer = Composing::new_nfkc(); $call }
        }
    };
}

macro_rules! exports {
    ($($name:ident($form:ident, $text:ident: $unit:ty, $to:ident: $buffer:ty) $call:expr)*) => {$(
        /// # Safety
        /// The text is there, well-formed if its units are of 8 or 32 bits, and no other call runs.
        #[no_mangle]
        pub unsafe extern "C" fn $name($form: u32, at: *const $unit, length: usize, made: &mut *const $unit) -> usize {
            static mut KEPT: $buffer = <$buffer>::new();
            let ($text, $to) = (from_raw_parts(at, length), &mut *addr_of_mut!(KEPT));
            $to.clear();
            let result = $call;
            *made = $to.as_ptr().cast();
            result
        }
    )*};
}

exports! {
    icu4x_utf8(form, text: u8, to: String)
        with_normalizer!(form, it => { it.normalize_to(from_utf8_unchecked(text), to).unwrap(); to.len() })
    icu4x_utf16(form, text: u16, to: Vec<u16>)
        with_normalizer!(form, it => { it.normalize_utf16_to(text, to).unwrap(); to.len() })
    icu4x_utf32(form, text: u32, to: Vec<u32>) {
        let chars = text.iter().map(|&unit| char::from_u32_unchecked(unit));
        with_normalizer!(form, it => { to.extend(it.normalize_iter(chars).map(u32::from)); to.len() })
    }
    icu4x_is_utf8(form, text: u8, to: String) with_normalizer!(form, it => usize::from(it.is_normalized(from_utf8_unchecked(text))))
    icu4x_is_utf16(form, text: u16, to: Vec<u16>) with_normalizer!(form, it => usize::from(it.is_normalized_utf16(text)))
    iterated_utf8(form, text: u8, to: String) {
        let text = from_utf8_unchecked(text);
        match form { 0 => to.extend(text.nfd()), 1 => to.extend(text.nfc()), 2 => to.extend(text.nfkd()), _ => to.extend(text.nfkc()) }
        to.len()
    }
    iterated_is_utf8(form, text: u8, to: String)
        usize::from([is_nfd, is_nfc, is_nfkd, is_nfkc][form as usize](from_utf8_unchecked(text)))
}
