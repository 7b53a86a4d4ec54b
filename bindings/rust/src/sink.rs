//! Sinks, to which forms are written piece by piece.
use crate::handle::{Borrowed, Form, OpenHandle};
use crate::unit::Unit;
use std::fmt;

/// A sink of UTF-16, as `fmt::Write` is one of UTF-8. It has the methods of `write16::Write16`.
pub trait Write16 {
    /// Takes units, all of them or none.
    ///
    /// # Errors
    /// The units aren't taken.
    fn write_slice(&mut self, units: &[u16]) -> fmt::Result;

    /// Takes the units of a character.
    ///
    /// # Errors
    /// The units aren't taken.
    fn write_char(&mut self, character: char) -> fmt::Result {
        self.write_slice(character.encode_utf16(&mut [0; 2]))
    }

    /// Learns that about so many units will come.
    ///
    /// # Errors
    /// There is no room for them.
    fn size_hint(&mut self, units: usize) -> fmt::Result {
        let _ = units;
        Ok(())
    }
}

impl Write16 for Vec<u16> {
    fn write_slice(&mut self, units: &[u16]) -> fmt::Result {
        self.extend_from_slice(units);
        Ok(())
    }

    fn size_hint(&mut self, units: usize) -> fmt::Result {
        self.reserve(units);
        Ok(())
    }
}

/// How many units a piece has at least, unless it is the last.
const PIECE: usize = 4096;

/// How many of the units are the first piece. The form of the units is that of this piece and that of the others.
fn piece_length<U: Unit>(handle: &mut OpenHandle, form: Form, units: &[U]) -> usize {
    let mut ends = PIECE..units.len();
    let end = ends.find(|&end| U::first(&units[end..]).is_some_and(|next| handle.has_boundary_before(form, next)));
    end.unwrap_or(units.len())
}

/// Writes the form of units, piece by piece: what is normalized as it is, and the form of the rest of the piece.
fn write_form<U: Unit>(
    data: Borrowed<'_>,
    form: Form,
    mut units: &[U],
    mut write: impl FnMut(&[U]) -> fmt::Result,
) -> fmt::Result {
    let mut made = Vec::new();
    while !units.is_empty() {
        let (length, cut) = data.with(|handle| {
            let length = piece_length(handle, form, units);
            let cut = handle.cut(form, &units[..length]);
            made.clear();
            handle.append_form(form, &units[cut..length], &mut made);
            (length, cut)
        });
        for written in [&units[..cut], &made] {
            if !written.is_empty() {
                write(written)?;
            }
        }
        units = &units[length..];
    }
    Ok(())
}

/// Writes the form of bytes.
pub(crate) fn write_utf8<W: fmt::Write + ?Sized>(
    data: Borrowed<'_>,
    form: Form,
    bytes: &[u8],
    sink: &mut W,
) -> fmt::Result {
    write_form(data, form, bytes, |piece| {
        // Safety: what is normalized is well-formed UTF-8, and so is a form.
        sink.write_str(unsafe { std::str::from_utf8_unchecked(piece) })
    })
}

/// Writes the form of 16-bit units.
pub(crate) fn write_utf16<W: Write16 + ?Sized>(
    data: Borrowed<'_>,
    form: Form,
    units: &[u16],
    sink: &mut W,
) -> fmt::Result {
    sink.size_hint(units.len())?;
    write_form(data, form, units, |piece| sink.write_slice(piece))
}
