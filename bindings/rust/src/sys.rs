//! The calls of `durskeyl.h` as they are. What a caller promises is said there.

use std::ffi::{c_char, c_void};

/// How many places the limits have.
pub const LIMITS: usize = 24;

/// `durskeyl_settings`.
#[repr(C)]
#[derive(Clone, Copy, Debug)]
pub struct Settings {
    pub features: u64,
    pub limits: [u32; LIMITS],
}

/// `durskeyl_fault`.
#[repr(C)]
pub struct Fault {
    pub kind: u32,
    pub text_length: u32,
    pub offset: u64,
    pub detail: u64,
    pub text: [u8; 260],
    pub limit: u32,
}

impl Fault {
    /// One that says nothing, for a call to write into.
    pub(crate) fn none() -> Fault {
        Fault { kind: 0, text_length: 0, offset: 0, detail: 0, text: [0; 260], limit: 0 }
    }
}

/// `durskeyl_pieces`.
#[repr(C)]
#[derive(Debug)]
pub struct Pieces {
    pub inside: *mut c_void,
    pub begun: u64,
}

/// `durskeyl_import`.
#[repr(C)]
#[derive(Clone, Copy, Debug, Default)]
pub struct ImportRow {
    pub module_offset: u64,
    pub name_offset: u64,
    pub module_length: u32,
    pub name_length: u32,
    pub kind: u32,
    pub index: u32,
}

/// `durskeyl_export`.
#[repr(C)]
#[derive(Clone, Copy, Debug, Default)]
pub struct ExportRow {
    pub name_offset: u64,
    pub name_length: u32,
    pub kind: u32,
    pub index: u32,
    pub later: u32,
}

/// `durskeyl_module`.
#[repr(C)]
#[derive(Debug)]
pub struct Module {
    pub inside: *mut c_void,
    pub known: u64,
}

impl Module {
    pub(crate) fn none() -> Module {
        Module { inside: std::ptr::null_mut(), known: 0 }
    }
}

/// No type, in the place of an id.
pub const NO_TYPE: u32 = u32::MAX;
pub const MUTABLE: u32 = 1;
pub const NULLABLE: u32 = 2;
pub const SHARED: u32 = 4;
pub const EXACT: u32 = 8;
pub const BITS_64: u32 = 16;
pub const HAS_MAXIMUM: u32 = 32;
pub const HAS_PAGE_SIZE: u32 = 64;
pub const FINAL: u32 = 128;

/// `durskeyl_value`.
#[repr(C)]
#[derive(Clone, Copy, Debug, Default)]
pub struct ValueRow {
    pub kind: u32,
    pub flags: u32,
    pub heap: u32,
    pub id: u32,
}

/// `durskeyl_entity`.
#[repr(C)]
#[derive(Clone, Copy, Debug, Default)]
pub struct EntityRow {
    pub kind: u32,
    pub flags: u32,
    pub id: u32,
    pub page_size_log2: u32,
    pub value: ValueRow,
    pub minimum: u64,
    pub maximum: u64,
}

/// `durskeyl_type`.
#[repr(C)]
#[derive(Clone, Copy, Debug, Default)]
pub struct TypeRow {
    pub kind: u32,
    pub flags: u32,
    pub supertype: u32,
    pub group_first: u32,
    pub group_count: u32,
    pub values: u32,
    pub params: u32,
    pub function: u32,
    pub descriptor: u32,
    pub describes: u32,
}

unsafe extern "C" {
    pub safe fn durskeyl_version() -> u32;
    pub safe fn durskeyl_version_text() -> *const c_char;
    pub fn durskeyl_read_features(list: *const c_char, features: *mut u64) -> *const c_char;
    pub safe fn durskeyl_features(set: u32) -> u64;
    pub fn durskeyl_settings_default(settings: *mut Settings);
    pub fn durskeyl_validate(settings: *const Settings, bytes: *const u8, length: usize, fault: *mut Fault) -> u32;
    pub fn durskeyl_validate_part(
        settings: *const Settings,
        bytes: *const u8,
        length: usize,
        part: u32,
        parts: u32,
        fault: *mut Fault,
    ) -> u32;
    pub fn durskeyl_begin(settings: *const Settings, most: u64, pieces: *mut Pieces, fault: *mut Fault) -> u32;
    pub fn durskeyl_take(pieces: *mut Pieces, bytes: *const u8, length: usize, fault: *mut Fault) -> u32;
    pub fn durskeyl_end(pieces: *mut Pieces, fault: *mut Fault) -> u32;
    pub fn durskeyl_drop(pieces: *mut Pieces);
    pub fn durskeyl_is_valid(bytes: *const u8, length: usize) -> u32;
    pub fn durskeyl_imports(bytes: *const u8, length: usize, rows: *mut ImportRow, capacity: usize) -> u64;
    pub fn durskeyl_exports(bytes: *const u8, length: usize, rows: *mut ExportRow, capacity: usize) -> u64;
    pub fn durskeyl_validate_types(
        settings: *const Settings,
        bytes: *const u8,
        length: usize,
        module: *mut Module,
        fault: *mut Fault,
    ) -> u32;
    pub fn durskeyl_release(module: *mut Module);
    pub fn durskeyl_entities(module: *mut Module, kind: u32, first: u32, rows: *mut EntityRow, capacity: usize) -> u64;
    pub fn durskeyl_type_ids(module: *mut Module, first: u32, ids: *mut u32, capacity: usize) -> u64;
    pub fn durskeyl_types(module: *mut Module, first: u32, rows: *mut TypeRow, capacity: usize) -> u64;
    pub fn durskeyl_type_values(module: *mut Module, id: u32, rows: *mut ValueRow, capacity: usize) -> u64;
    pub fn durskeyl_start(bytes: *const u8, length: usize) -> u64;
}
