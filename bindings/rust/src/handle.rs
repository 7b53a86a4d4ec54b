//! Handles of the library, each used by one call at a time. No code of a caller of this crate runs during a call.
use crate::error::Error;
use crate::ffi::{self, Handle, Maps, Reports};
use crate::unit::Unit;
use std::alloc::{handle_alloc_error, Layout};
use std::cell::Cell;
use std::fmt;
use std::mem::size_of;
use std::sync::{Mutex, OnceLock, PoisonError};

/// The bytes of a file of the data of this crate.
macro_rules! own_file {
    ($name:literal) => {
        include_bytes!(concat!(env!("ICU_NORMALIZER_DATA"), "/", $name))
    };
}

/// A form, with its number in the library.
#[derive(Clone, Copy, Debug, PartialEq, Eq)]
#[repr(u32)]
pub(crate) enum Form {
    Nfd = 0,
    Nfc = 1,
    Nfkd = 2,
    Nfkc = 3,
}

fn out_of_memory(room: usize) -> ! {
    handle_alloc_error(Layout::from_size_align(room.max(1), 1).unwrap_or(Layout::new::<u8>()))
}

/// A handle that is open.
pub(crate) struct OpenHandle(Handle);

// Safety: a handle may go to another thread. Its data are counted atomically.
unsafe impl Send for OpenHandle {}

impl fmt::Debug for OpenHandle {
    fn fmt(&self, f: &mut fmt::Formatter<'_>) -> fmt::Result {
        f.debug_struct("OpenHandle").finish_non_exhaustive()
    }
}

impl Drop for OpenHandle {
    fn drop(&mut self) {
        // Safety: the handle began as a closed one, and only the library changes it.
        unsafe { ffi::icu_normalizer_close(&mut self.0) }
    }
}

impl OpenHandle {
    fn open(unicode_data: &[u8], exclusions: &[u8], idna_table: &[u8], limit: u32) -> Result<OpenHandle, Error> {
        let mut open = OpenHandle(Handle::CLOSED);
        let mut defect = ffi::Defect::default();
        // Safety: each pointer with its length is a slice, and nothing overlaps the handle or the defect.
        let status = unsafe {
            ffi::icu_normalizer_open_files(
                &mut open.0,
                unicode_data.as_ptr(),
                unicode_data.len(),
                exclusions.as_ptr(),
                exclusions.len(),
                idna_table.as_ptr(),
                idna_table.len(),
                limit,
                &mut defect,
            )
        };
        open.unless(status, defect, unicode_data.len())
    }

    fn open_prepared(prepared: &[u8]) -> Result<OpenHandle, Error> {
        let mut open = OpenHandle(Handle::CLOSED);
        let mut defect = ffi::Defect::default();
        // Safety: as for `open`.
        let status =
            unsafe { ffi::icu_normalizer_open_prepared(&mut open.0, prepared.as_ptr(), prepared.len(), &mut defect) };
        open.unless(status, defect, prepared.len())
    }

    fn unless(self, status: u32, defect: ffi::Defect, room: usize) -> Result<OpenHandle, Error> {
        match status {
            ffi::OK => Ok(self),
            _ => Err(Error::of(status, defect).unwrap_or_else(|| out_of_memory(room))),
        }
    }

    fn shared(&mut self) -> OpenHandle {
        let mut open = OpenHandle(Handle::CLOSED);
        // Safety: these are two handles.
        match unsafe { ffi::icu_normalizer_share(&mut self.0, &mut open.0) } {
            ffi::OK => open,
            _ => out_of_memory(size_of::<usize>()),
        }
    }

    /// What a call reports.
    fn report<R: Default>(&mut self, call: impl FnOnce(*mut Handle, &mut R) -> u32) -> R {
        let mut reported = R::default();
        match call(&mut self.0, &mut reported) {
            ffi::OK => reported,
            ffi::OUT_OF_MEMORY => out_of_memory(size_of::<R>()),
            status => unreachable!("status {status}"),
        }
    }

    /// What a call reports of units.
    pub(crate) fn reported<U, R: Default>(&mut self, call: Reports<U, R>, form: Form, units: &[U]) -> R {
        // Safety: the units are a slice, and overlap neither the handle nor what is reported.
        self.report(|handle, to| unsafe { call(handle, form as u32, units.as_ptr(), units.len(), to) })
    }

    pub(crate) fn combining_class(&mut self, character: char) -> u8 {
        // Safety: the handle overlaps nothing that is reported.
        self.report(|handle, to| unsafe { ffi::icu_normalizer_combining_class(handle, character.into(), to) })
    }

    pub(crate) fn compose(&mut self, first: char, second: char) -> Option<char> {
        // Safety: as for `combining_class`.
        let call = |handle, to: &mut _| unsafe { ffi::icu_normalizer_compose(handle, first.into(), second.into(), to) };
        char::from_u32(self.report(call))
    }

    /// The one or two characters of a canonical mapping, if there is one.
    pub(crate) fn decompose(&mut self, character: char) -> (Option<char>, Option<char>) {
        // Safety: as for `combining_class`.
        let call = |handle, (first, second): &mut (u32, u32)| unsafe {
            ffi::icu_normalizer_decompose(handle, character.into(), first, second)
        };
        let (first, second) = self.report(call);
        (char::from_u32(first), char::from_u32(second))
    }

    /// Whether the form of each text is that of what comes before this character and that of the rest.
    pub(crate) fn has_boundary_before(&mut self, form: Form, character: char) -> bool {
        let (call, form) = (ffi::icu_normalizer_has_boundary_before, form as u32);
        // Safety: as for `combining_class`.
        self.report(|handle, to| unsafe { call(handle, form, character.into(), to) })
    }

    pub(crate) fn unicode_version(&mut self) -> [u8; 3] {
        // Safety: as for `combining_class`.
        let version = self.report(|handle, to| unsafe { ffi::icu_normalizer_unicode_version(handle, to) });
        let [_, version @ ..] = u32::to_be_bytes(version);
        version
    }

    /// How many of the first units the form begins with, followed by the form of the others.
    pub(crate) fn cut<U: Unit>(&mut self, form: Form, units: &[U]) -> usize {
        self.reported(U::SPLIT, form, units)
    }

    /// The form of units, or `None` if they are well-formed and normalized.
    pub(crate) fn form_of<U: Unit>(&mut self, form: Form, units: &[U]) -> Option<Vec<U>> {
        let (normalized, rest) = units.split_at(self.cut(form, units));
        if rest.is_empty() {
            return None;
        }
        let mut made = Vec::with_capacity(units.len() + rest.len() / 8 + 16);
        made.extend_from_slice(normalized);
        self.append_form(form, rest, &mut made);
        Some(made)
    }

    /// Appends the form of units.
    pub(crate) fn append_form<U: Unit>(&mut self, form: Form, units: &[U], made: &mut Vec<U>) {
        let handle = &mut self.0;
        append(made, units.len(), |output, room, needed| {
            // Safety: the units are a slice, and overlap neither the handle nor the room, which isn't part of `made`.
            unsafe { U::NORMALIZE(handle, form as u32, units.as_ptr(), units.len(), output, room, needed) }
        });
    }

    pub(crate) fn has_mapper(&mut self) -> bool {
        self.append_mapped(ffi::icu_normalizer_map_utf8, "", &mut Vec::new())
    }

    /// Appends what a text is mapped to. Returns whether there is a mapper.
    pub(crate) fn append_mapped(&mut self, call: Maps<u8>, text: &str, made: &mut Vec<u8>) -> bool {
        let handle = &mut self.0;
        append(made, text.len(), |output, room, needed| {
            // Safety: as for `append_form`.
            unsafe { call(handle, text.as_ptr(), text.len(), output, room, needed) }
        })
    }
}

/// Appends what a call writes. Returns whether there is a mapper, if the call needs one.
fn append<U: Copy>(made: &mut Vec<U>, expected: usize, mut call: impl FnMut(*mut U, usize, &mut usize) -> u32) -> bool {
    made.reserve(expected);
    loop {
        let mut needed = 0;
        let spare = made.spare_capacity_mut();
        match call(spare.as_mut_ptr().cast(), spare.len(), &mut needed) {
            ffi::OK => {
                // Safety: the call wrote so many units after those that were there.
                unsafe { made.set_len(made.len() + needed) };
                return true;
            }
            ffi::BUFFER_TOO_SMALL => made.reserve_exact(needed),
            ffi::NO_MAPPER => return false,
            ffi::OUT_OF_MEMORY => out_of_memory(expected),
            status => unreachable!("status {status}"),
        }
    }
}

/// A handle that several threads may use, one at a time. A clone shares the data.
#[derive(Debug)]
pub(crate) struct SharedHandle(Mutex<OpenHandle>);

impl SharedHandle {
    pub(crate) fn open(unicode_data: &[u8], exclusions: &[u8], table: &[u8], limit: u32) -> Result<Self, Error> {
        OpenHandle::open(unicode_data, exclusions, table, limit).map(|open| SharedHandle(Mutex::new(open)))
    }

    pub(crate) fn open_prepared(prepared: &[u8]) -> Result<Self, Error> {
        OpenHandle::open_prepared(prepared).map(|open| SharedHandle(Mutex::new(open)))
    }

    fn with<R>(&self, call: impl FnOnce(&mut OpenHandle) -> R) -> R {
        call(&mut self.0.lock().unwrap_or_else(PoisonError::into_inner))
    }
}

impl Clone for SharedHandle {
    fn clone(&self) -> Self {
        SharedHandle(Mutex::new(self.with(OpenHandle::shared)))
    }
}

/// The data of this crate, or others.
#[derive(Clone, Debug)]
pub(crate) enum Data {
    Own,
    Others(SharedHandle),
}

impl Data {
    pub(crate) fn prepared(prepared: &[u8]) -> Result<Self, Error> {
        SharedHandle::open_prepared(prepared).map(Data::Others)
    }

    pub(crate) fn as_borrowed(&self) -> Borrowed<'_> {
        match self {
            Data::Own => Borrowed::Own,
            Data::Others(shared) => Borrowed::Others(shared),
        }
    }
}

/// The data of this crate, or others that are borrowed.
#[derive(Clone, Copy, Debug)]
pub(crate) enum Borrowed<'data> {
    Own,
    Others(&'data SharedHandle),
}

impl Borrowed<'_> {
    pub(crate) fn to_owned(self) -> Data {
        match self {
            Borrowed::Own => Data::Own,
            Borrowed::Others(shared) => Data::Others(shared.clone()),
        }
    }

    /// Calls with a handle over these data.
    pub(crate) fn with<R>(self, call: impl FnOnce(&mut OpenHandle) -> R) -> R {
        match self {
            Borrowed::Own => with_own(call),
            Borrowed::Others(shared) => shared.with(call),
        }
    }
}

/// Opens a handle over the data of this crate.
fn open_own() -> Result<SharedHandle, Error> {
    #[cfg(has_prepared_data)]
    return SharedHandle::open_prepared(own_file!("prepared"));
    #[cfg(not(has_prepared_data))]
    SharedHandle::open(
        own_file!("UnicodeData.txt"),
        own_file!("CompositionExclusions.txt"),
        &[],
        0,
    )
}

/// Calls with a handle over the data of this crate: that of this thread, or at the thread's end a new one.
fn with_own<R>(call: impl FnOnce(&mut OpenHandle) -> R) -> R {
    static FIRST: OnceLock<SharedHandle> = OnceLock::new();
    thread_local! {
        static OWN: Cell<Option<OpenHandle>> = const { Cell::new(None) };
    }
    let first = || FIRST.get_or_init(|| open_own().expect("the data of this crate are right"));
    let kept = OWN.try_with(Cell::take).ok().flatten();
    let mut own = kept.unwrap_or_else(|| first().with(OpenHandle::shared));
    let result = call(&mut own);
    // At the thread's end the handle has no place, and is closed.
    let _ = OWN.try_with(|place| place.set(Some(own)));
    result
}
