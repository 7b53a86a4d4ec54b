//! The calls of icu_normalizer.h.
use std::ffi::c_void;

#[repr(C)]
pub struct Handle {
    normalizers: *mut c_void,
    is_open: bool,
    is_in_use: usize,
}

#[repr(C)]
#[derive(Clone, Copy, Default)]
pub struct Mismatch {
    pub offset: usize,
    pub found: u32,
    pub expected: u32,
    pub exists: bool,
}

#[repr(C)]
#[derive(Clone, Copy, Default)]
pub struct Defect {
    pub place: usize,
    pub source: u32,
    pub reason: u32,
    pub character: u32,
    pub condition: u32,
}

pub const OK: u32 = 0;
pub const BUFFER_TOO_SMALL: u32 = 1;
pub const OUT_OF_MEMORY: u32 = 2;
pub const WRONG_LINE: u32 = 5;
pub const WRONG_RECORDS: u32 = 6;
pub const NO_MAPPER: u32 = 7;
pub const WRONG_PREPARED: u32 = 10;

extern "C" {
    pub fn icu_normalizer_open_files(
        handle: *mut Handle,
        unicode_data: *const u8,
        unicode_data_length: usize,
        exclusions: *const u8,
        exclusions_length: usize,
        idna_table: *const u8,
        idna_table_length: usize,
        disallowed_limit: u32,
        defect: *mut Defect,
    ) -> u32;
    pub fn icu_normalizer_open_prepared(
        handle: *mut Handle,
        prepared: *const u8,
        prepared_length: usize,
        defect: *mut Defect,
    ) -> u32;
    pub fn icu_normalizer_share(from: *mut Handle, to: *mut Handle) -> u32;
    pub fn icu_normalizer_close(handle: *mut Handle);
    pub fn icu_normalizer_version() -> u32;
}

pub type Reports<U, R> = unsafe extern "C" fn(*mut Handle, u32, *const U, usize, *mut R) -> u32;
pub type Writes<U> = unsafe extern "C" fn(*mut Handle, u32, *const U, usize, *mut U, usize, *mut usize) -> u32;
pub type Maps<U> = unsafe extern "C" fn(*mut Handle, *const U, usize, *mut U, usize, *mut usize) -> u32;

extern "C" {
    pub fn icu_normalizer_normalize_utf8(
        handle: *mut Handle,
        form: u32,
        input: *const u8,
        input_length: usize,
        output: *mut u8,
        output_length: usize,
        needed: *mut usize,
    ) -> u32;
    pub fn icu_normalizer_normalize_utf16(
        handle: *mut Handle,
        form: u32,
        input: *const u16,
        input_length: usize,
        output: *mut u16,
        output_length: usize,
        needed: *mut usize,
    ) -> u32;
    pub fn icu_normalizer_is_normalized_utf8(h: *mut Handle, f: u32, i: *const u8, n: usize, r: *mut bool) -> u32;
    pub fn icu_normalizer_is_normalized_utf16(h: *mut Handle, f: u32, i: *const u16, n: usize, r: *mut bool) -> u32;
    pub fn icu_normalizer_split_utf8(h: *mut Handle, f: u32, i: *const u8, n: usize, r: *mut usize) -> u32;
    pub fn icu_normalizer_split_utf16(h: *mut Handle, f: u32, i: *const u16, n: usize, r: *mut usize) -> u32;
    pub fn icu_normalizer_first_mismatch_utf8(h: *mut Handle, f: u32, i: *const u8, n: usize, r: *mut Mismatch) -> u32;
    pub fn icu_normalizer_map_utf8(
        handle: *mut Handle,
        input: *const u8,
        input_length: usize,
        output: *mut u8,
        output_length: usize,
        needed: *mut usize,
    ) -> u32;
    pub fn icu_normalizer_validate_utf8(
        handle: *mut Handle,
        input: *const u8,
        input_length: usize,
        output: *mut u8,
        output_length: usize,
        needed: *mut usize,
    ) -> u32;
}

// In place of a character that isn't there, these write 0x110000, which no character has.
extern "C" {
    pub fn icu_normalizer_combining_class(handle: *mut Handle, character: u32, combining_class: *mut u8) -> u32;
    pub fn icu_normalizer_compose(handle: *mut Handle, first: u32, second: u32, composite: *mut u32) -> u32;
    pub fn icu_normalizer_decompose(handle: *mut Handle, character: u32, first: *mut u32, second: *mut u32) -> u32;
    pub fn icu_normalizer_has_boundary_before(h: *mut Handle, form: u32, character: u32, has: *mut bool) -> u32;
    pub fn icu_normalizer_unicode_version(handle: *mut Handle, version: *mut u32) -> u32;
}

impl Handle {
    pub const CLOSED: Handle = Handle {
        normalizers: std::ptr::null_mut(),
        is_open: false,
        is_in_use: 0,
    };
}
