//! Normalizers and a mapper over data that are given.
use crate::error::Error;
use crate::ffi::{self, Maps};
use crate::handle::{Borrowed, Form, SharedHandle};
use crate::properties::{
    CanonicalCombiningClassMapBorrowed, CanonicalCompositionBorrowed, CanonicalDecompositionBorrowed,
};
use crate::uts46::Uts46MapperBorrowed;
use crate::{ComposingNormalizerBorrowed, DecomposingNormalizerBorrowed};

/// Normalizers to the four forms, and perhaps a mapper, over the data of Unicode's files.
///
/// A clone shares the data.
///
/// ```
/// use icu_normalizer_proved::Normalizers;
///
/// # std::env::set_current_dir(concat!(env!("CARGO_MANIFEST_DIR"), "/../../data/unicode")).unwrap();
/// let unicode_data = std::fs::read("UnicodeData.txt").unwrap();
/// let exclusions = std::fs::read("CompositionExclusions.txt").unwrap();
/// let normalizers = Normalizers::try_new(&unicode_data, &exclusions)?;
/// let for_a_thread = normalizers.clone();
/// std::thread::spawn(move || assert_eq!(for_a_thread.nfd().normalize("ä"), "a\u{0308}")).join().unwrap();
/// # Ok::<(), icu_normalizer_proved::Error>(())
/// ```
#[derive(Clone, Debug)]
pub struct Normalizers(SharedHandle);

impl Normalizers {
    /// Returns the normalizers by the bytes of `UnicodeData.txt` and `CompositionExclusions.txt`, without a mapper.
    ///
    /// # Errors
    /// What is wrong with the data.
    pub fn try_new(unicode_data: &[u8], exclusions: &[u8]) -> Result<Self, Error> {
        Self::try_new_with_mapper(unicode_data, exclusions, &[], 0)
    }

    /// Returns the normalizers, with a mapper by the bytes of `IdnaMappingTable.txt`, without its disallowed ranges of
    /// more than `disallowed_limit` code points. With `0x110000` none is left out.
    ///
    /// # Errors
    /// What is wrong with the data.
    pub fn try_new_with_mapper(
        unicode_data: &[u8],
        exclusions: &[u8],
        idna_table: &[u8],
        disallowed_limit: u32,
    ) -> Result<Self, Error> {
        SharedHandle::open(unicode_data, exclusions, idna_table, disallowed_limit).map(Normalizers)
    }

    /// Returns the normalizers by the bytes of a file of prepared data, which `uninorm prepare` makes. It is opened in
    /// less time than Unicode's files, and has a mapper if it was made with one.
    ///
    /// # Errors
    /// What is wrong with the file.
    pub fn try_new_prepared(prepared: &[u8]) -> Result<Self, Error> {
        SharedHandle::open_prepared(prepared).map(Normalizers)
    }

    fn data(&self) -> Borrowed<'_> {
        Borrowed::Others(&self.0)
    }

    /// Returns the normalizer to NFC.
    pub fn nfc(&self) -> ComposingNormalizerBorrowed<'_> {
        ComposingNormalizerBorrowed::over(self.data(), Form::Nfc)
    }

    /// Returns the normalizer to NFKC.
    pub fn nfkc(&self) -> ComposingNormalizerBorrowed<'_> {
        ComposingNormalizerBorrowed::over(self.data(), Form::Nfkc)
    }

    /// Returns the normalizer to NFD.
    pub fn nfd(&self) -> DecomposingNormalizerBorrowed<'_> {
        DecomposingNormalizerBorrowed::over(self.data(), Form::Nfd)
    }

    /// Returns the normalizer to NFKD.
    pub fn nfkd(&self) -> DecomposingNormalizerBorrowed<'_> {
        DecomposingNormalizerBorrowed::over(self.data(), Form::Nfkd)
    }

    /// Returns what pairs of characters compose to.
    pub fn composition(&self) -> CanonicalCompositionBorrowed<'_> {
        CanonicalCompositionBorrowed(self.data())
    }

    /// Returns the canonical mappings of characters.
    pub fn decomposition(&self) -> CanonicalDecompositionBorrowed<'_> {
        CanonicalDecompositionBorrowed(self.data())
    }

    /// Returns the canonical combining classes of characters.
    pub fn combining_classes(&self) -> CanonicalCombiningClassMapBorrowed<'_> {
        CanonicalCombiningClassMapBorrowed(self.data())
    }

    /// Returns the mapper, if there is one.
    pub fn mapper(&self) -> Option<Uts46MapperBorrowed<'_>> {
        let data = self.data();
        data.with(|handle| handle.has_mapper())
            .then_some(Uts46MapperBorrowed(data))
    }

    /// Returns the version of Unicode that the data state, as `[major, minor, update]`, or zeros if they state none.
    pub fn unicode_version(&self) -> [u8; 3] {
        self.data().with(|handle| handle.unicode_version())
    }

    /// Returns a text mapped by Unicode Technical Standard #46 and in NFC: ignored characters are dropped, disallowed
    /// ones become U+FFFD. Without a mapper there is none.
    pub fn map(&self, text: &str) -> Option<String> {
        self.mapped(ffi::icu_normalizer_map_utf8, text)
    }

    /// Returns the same, with U+FFFD for ignored characters too. Mapped text is valid only if this leaves it unchanged.
    pub fn validate(&self, text: &str) -> Option<String> {
        self.mapped(ffi::icu_normalizer_validate_utf8, text)
    }

    fn mapped(&self, call: Maps<u8>, text: &str) -> Option<String> {
        let mut made = Vec::new();
        let has_mapper = self.data().with(|handle| handle.append_mapped(call, text, &mut made));
        // Safety: the library writes well-formed UTF-8.
        has_mapper.then(|| unsafe { String::from_utf8_unchecked(made) })
    }
}
