//! The mapper of Unicode Technical Standard #46, section 4. STD3 rules, Punycode and the other steps are left to the
//! caller.
use crate::error::Error;
use crate::handle::{Borrowed, Data, Form};
use crate::iterators::{Ignored, Mapped, Pieces};

const VIRAMA: u8 = 9;

/// A mapper with its own data, or those of this crate.
///
/// A clone shares the data.
#[derive(Clone, Debug)]
pub struct Uts46Mapper(Data);

impl Uts46Mapper {
    /// Returns [`Uts46MapperBorrowed::new`].
    #[allow(clippy::new_ret_no_self)]
    pub const fn new() -> Uts46MapperBorrowed<'static> {
        Uts46MapperBorrowed::new()
    }

    /// Returns the mapper by the bytes of a file of prepared data.
    ///
    /// # Errors
    /// What is wrong with the file, or [`Error::NoMapper`].
    pub fn try_new_prepared(prepared: &[u8]) -> Result<Self, Error> {
        let mapper = Uts46Mapper(Data::prepared(prepared)?);
        match mapper.0.as_borrowed().with(|handle| handle.has_mapper()) {
            true => Ok(mapper),
            false => Err(Error::NoMapper),
        }
    }

    /// Returns this mapper, borrowed.
    pub fn as_borrowed(&self) -> Uts46MapperBorrowed<'_> {
        Uts46MapperBorrowed(self.0.as_borrowed())
    }
}

impl Default for Uts46Mapper {
    fn default() -> Self {
        Self::new().static_to_owned()
    }
}

/// A mapper over borrowed data, or those of this crate.
#[derive(Clone, Copy, Debug)]
pub struct Uts46MapperBorrowed<'data>(pub(crate) Borrowed<'data>);

impl Uts46MapperBorrowed<'static> {
    /// Returns the mapper over the data of this crate.
    ///
    /// # Panics
    /// Not this call, but those of the mapper, if the data of this crate are without one.
    pub const fn new() -> Self {
        Uts46MapperBorrowed(Borrowed::Own)
    }

    /// Returns this mapper as an owned one.
    pub fn static_to_owned(self) -> Uts46Mapper {
        Uts46Mapper(self.0.to_owned())
    }
}

impl Default for Uts46MapperBorrowed<'static> {
    fn default() -> Self {
        Self::new()
    }
}

impl<'data> Uts46MapperBorrowed<'data> {
    /// Returns whether a character is mapped to itself, and its canonical combining class is 9 (Virama).
    ///
    /// # Panics
    /// If the data have no mapper.
    pub fn is_virama(&self, c: char) -> bool {
        self.map_normalize([c].into_iter()).eq([c]) && self.0.with(|handle| handle.combining_class(c)) == VIRAMA
    }

    /// Returns the characters of a text mapped and in NFC, lazily: ignored characters are dropped, disallowed ones
    /// become U+FFFD. The iterator reads 64 characters at a time, and more until a text may be divided.
    ///
    /// # Panics
    /// The iterator, if the data have no mapper.
    pub fn map_normalize<'delegate, I: Iterator<Item = char> + 'delegate>(
        &'delegate self,
        iter: I,
    ) -> impl Iterator<Item = char> + 'delegate {
        self.mapped(Ignored::Dropped, iter)
    }

    /// Returns the same, with U+FFFD for ignored characters too. Mapped text is valid only if this leaves it unchanged.
    ///
    /// # Panics
    /// The iterator, if the data have no mapper.
    pub fn normalize_validate<'delegate, I: Iterator<Item = char> + 'delegate>(
        &'delegate self,
        iter: I,
    ) -> impl Iterator<Item = char> + 'delegate {
        self.mapped(Ignored::Replaced, iter)
    }

    fn mapped<I: Iterator<Item = char>>(&self, ignored: Ignored, iter: I) -> Pieces<'data, Mapped<'data, I>> {
        Pieces::new(self.0, Form::Nfc, Mapped::new(self.0, ignored, iter))
    }
}
