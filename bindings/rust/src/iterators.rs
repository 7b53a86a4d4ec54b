//! Iterators over the characters of a form. They read a piece of a text at a time, since a call of the library takes
//! longer than to make the form of a character.
use crate::ffi::{self, Maps};
use crate::handle::{Borrowed, Form};
use std::iter::{Fuse, FusedIterator};

/// How many characters a piece has at least, unless it is the last.
const PIECE: usize = 64;

/// Characters that are made and not yet taken.
#[derive(Clone, Debug, Default)]
struct Made {
    text: String,
    taken: usize,
}

impl Made {
    fn next(&mut self) -> Option<char> {
        let character = self.text[self.taken..].chars().next()?;
        self.taken += character.len_utf8();
        Some(character)
    }

    /// Makes characters, in place of those that are all taken.
    fn make(&mut self, write: impl FnOnce(&mut Vec<u8>)) {
        self.taken = 0;
        let mut bytes = std::mem::take(&mut self.text).into_bytes();
        bytes.clear();
        write(&mut bytes);
        // Safety: the library writes well-formed UTF-8.
        self.text = unsafe { String::from_utf8_unchecked(bytes) };
    }
}

/// The characters of a form, made piece by piece: each ends before a character at which a text may be divided.
#[derive(Clone, Debug)]
pub(crate) struct Pieces<'data, I> {
    data: Borrowed<'data>,
    form: Form,
    delegate: Fuse<I>,
    /// The first character of the next piece, if it is read.
    ahead: Option<char>,
    piece: String,
    made: Made,
}

impl<'data, I: Iterator<Item = char>> Pieces<'data, I> {
    pub(crate) fn new(data: Borrowed<'data>, form: Form, delegate: I) -> Self {
        Pieces {
            data,
            form,
            delegate: delegate.fuse(),
            ahead: None,
            piece: String::new(),
            made: Made::default(),
        }
    }

    /// Reads the next piece. Returns whether there is one.
    fn read(&mut self) -> bool {
        self.piece.clear();
        self.piece.extend(self.ahead.take());
        self.piece.extend(self.delegate.by_ref().take(PIECE));
        for next in self.delegate.by_ref() {
            if self.data.with(|handle| handle.has_boundary_before(self.form, next)) {
                self.ahead = Some(next);
                break;
            }
            self.piece.push(next);
        }
        !self.piece.is_empty()
    }
}

impl<I: Iterator<Item = char>> Iterator for Pieces<'_, I> {
    type Item = char;

    fn next(&mut self) -> Option<char> {
        loop {
            if let Some(character) = self.made.next() {
                return Some(character);
            }
            if !self.read() {
                return None;
            }
            let (data, form, piece) = (self.data, self.form, self.piece.as_bytes());
            self.made.make(|bytes| {
                // The most that NFC and NFD take by Unicode's own data.
                bytes.reserve(3 * piece.len());
                data.with(|handle| handle.append_form(form, piece, bytes));
            });
        }
    }
}

/// The characters of a text in NFD or NFKD, lazily.
#[derive(Clone, Debug)]
pub struct Decomposition<'data, I>(pub(crate) Pieces<'data, I>);

impl<I: Iterator<Item = char>> Iterator for Decomposition<'_, I> {
    type Item = char;

    fn next(&mut self) -> Option<char> {
        self.0.next()
    }
}

impl<I: Iterator<Item = char>> FusedIterator for Decomposition<'_, I> {}

/// The characters of a text in NFC or NFKC, lazily.
#[derive(Clone, Debug)]
pub struct Composition<'data, I>(pub(crate) Pieces<'data, I>);

impl<I> Composition<'_, I> {
    /// Returns what two characters compose to, one after the other, if they do.
    pub fn compose(&self, starter: char, second: char) -> Option<char> {
        self.0.data.with(|handle| handle.compose(starter, second))
    }
}

impl<I: Iterator<Item = char>> Iterator for Composition<'_, I> {
    type Item = char;

    fn next(&mut self) -> Option<char> {
        self.0.next()
    }
}

impl<I: Iterator<Item = char>> FusedIterator for Composition<'_, I> {}

/// What an ignored character becomes.
#[derive(Clone, Copy, Debug)]
pub(crate) enum Ignored {
    Dropped,
    Replaced,
}

impl Ignored {
    fn call(self) -> Maps<u8> {
        match self {
            Ignored::Dropped => ffi::icu_normalizer_map_utf8,
            Ignored::Replaced => ffi::icu_normalizer_validate_utf8,
        }
    }
}

/// What pieces of a text are mapped to, each by itself. In NFC these are what the whole text is mapped to.
#[derive(Clone, Debug)]
pub(crate) struct Mapped<'data, I> {
    data: Borrowed<'data>,
    ignored: Ignored,
    delegate: Fuse<I>,
    piece: String,
    made: Made,
}

impl<'data, I: Iterator<Item = char>> Mapped<'data, I> {
    pub(crate) fn new(data: Borrowed<'data>, ignored: Ignored, delegate: I) -> Self {
        Mapped {
            data,
            ignored,
            delegate: delegate.fuse(),
            piece: String::new(),
            made: Made::default(),
        }
    }
}

impl<I: Iterator<Item = char>> Iterator for Mapped<'_, I> {
    type Item = char;

    fn next(&mut self) -> Option<char> {
        loop {
            if let Some(character) = self.made.next() {
                return Some(character);
            }
            self.piece.clear();
            self.piece.extend(self.delegate.by_ref().take(PIECE));
            if self.piece.is_empty() {
                return None;
            }
            let (data, call, piece) = (self.data, self.ignored.call(), &self.piece);
            self.made.make(|bytes| {
                let has_mapper = data.with(|handle| handle.append_mapped(call, piece, bytes));
                assert!(has_mapper, "the data have no mapper");
            });
        }
    }
}
