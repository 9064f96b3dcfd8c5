//! Modules that were accepted, and what they import and export.

use crate::sys;
use std::{iter, vec};

/// Bytes that were found to be a valid module.
#[derive(Clone, Copy, Debug)]
pub struct Module<'a> {
    bytes: &'a [u8],
}

/// What is imported or exported.
#[derive(Clone, Copy, Debug, PartialEq, Eq, Hash)]
#[non_exhaustive]
pub enum External {
    Function,
    Table,
    Memory,
    Global,
    Tag,
    /// A number that this crate does not know.
    Unknown(u32),
}

impl External {
    fn new(kind: u32) -> External {
        match kind {
            0 => External::Function,
            1 => External::Table,
            2 => External::Memory,
            3 => External::Global,
            4 => External::Tag,
            kind => External::Unknown(kind),
        }
    }
}

/// What a module imports.
#[derive(Clone, Copy, Debug, PartialEq, Eq)]
pub struct Import<'a> {
    /// The module that it is from.
    pub module: &'a str,
    /// Its name there.
    pub name: &'a str,
    pub kind: External,
    /// The index that it gets among those of its kind: imports come before what the module defines.
    pub index: u32,
}

/// What a module exports.
#[derive(Clone, Copy, Debug, PartialEq, Eq)]
pub struct Export<'a> {
    pub name: &'a str,
    pub kind: External,
    /// Its index among those of its kind.
    pub index: u32,
}

/// The imports of a module, in its order.
#[derive(Clone, Debug)]
pub struct Imports<'a> {
    bytes: &'a [u8],
    rows: vec::IntoIter<sys::ImportRow>,
}

/// The exports of a module, in its order.
#[derive(Clone, Debug)]
pub struct Exports<'a> {
    bytes: &'a [u8],
    rows: vec::IntoIter<sys::ExportRow>,
}

impl<'a> Module<'a> {
    // Of bytes that were accepted.
    pub(crate) fn new(bytes: &'a [u8]) -> Module<'a> {
        Module { bytes }
    }

    /// Its bytes.
    pub fn bytes(&self) -> &'a [u8] {
        self.bytes
    }

    /// The index of its start function, if it has one.
    pub fn start(&self) -> Option<u32> {
        // SAFETY: a slice has the length that it says, and is lent for the call.
        u32::try_from(unsafe { sys::durskeyl_start(self.bytes.as_ptr(), self.bytes.len()) }).ok()
    }

    /// What it imports, in its order.
    pub fn imports(&self) -> Imports<'a> {
        Imports { bytes: self.bytes, rows: rows(sys::durskeyl_imports, self.bytes).into_iter() }
    }

    /// What it exports, in its order.
    pub fn exports(&self) -> Exports<'a> {
        Exports { bytes: self.bytes, rows: rows(sys::durskeyl_exports, self.bytes).into_iter() }
    }
}

type Listing<R> = unsafe extern "C" fn(*const u8, usize, *mut R, usize) -> u64;

// All rows of bytes that were accepted: the library promises that it then answers how many there are, each of two bytes at least.
fn rows<R: Copy + Default>(listing: Listing<R>, bytes: &[u8]) -> Vec<R> {
    // SAFETY: a slice has the length that it says, and no row is written.
    let count = unsafe { listing(bytes.as_ptr(), bytes.len(), std::ptr::null_mut(), 0) };
    let count = usize::try_from(count).unwrap_or(usize::MAX);
    assert!(count <= bytes.len(), "durskeyl breaks its promise on a module that it accepted");
    let mut rows = vec![R::default(); count];
    // SAFETY: the same, and there are so many rows, apart from the bytes.
    unsafe { listing(bytes.as_ptr(), bytes.len(), rows.as_mut_ptr(), count) };
    rows
}

// The name at an offset, of a module that was accepted: there it is, and is UTF-8.
fn name(bytes: &[u8], offset: u64, length: u32) -> &str {
    let found = usize::try_from(offset).ok().and_then(|at| bytes.get(at..at.checked_add(length as usize)?));
    let found = found.expect("durskeyl breaks its promise: a name outside of the module");
    std::str::from_utf8(found).expect("durskeyl breaks its promise: a name that is not UTF-8")
}

impl<'a> Iterator for Imports<'a> {
    type Item = Import<'a>;

    fn next(&mut self) -> Option<Import<'a>> {
        let row = self.rows.next()?;
        let module = name(self.bytes, row.module_offset, row.module_length);
        let name = name(self.bytes, row.name_offset, row.name_length);
        Some(Import { module, name, kind: External::new(row.kind), index: row.index })
    }

    fn size_hint(&self) -> (usize, Option<usize>) {
        self.rows.size_hint()
    }
}

impl<'a> Iterator for Exports<'a> {
    type Item = Export<'a>;

    fn next(&mut self) -> Option<Export<'a>> {
        let row = self.rows.next()?;
        let name = name(self.bytes, row.name_offset, row.name_length);
        Some(Export { name, kind: External::new(row.kind), index: row.index })
    }

    fn size_hint(&self) -> (usize, Option<usize>) {
        self.rows.size_hint()
    }
}

impl ExactSizeIterator for Imports<'_> {}
impl ExactSizeIterator for Exports<'_> {}
impl iter::FusedIterator for Imports<'_> {}
impl iter::FusedIterator for Exports<'_> {}
