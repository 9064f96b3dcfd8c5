//! Durskeyl from Rust: a validator of WebAssembly core modules that is proved right.
//!
//! ```no_run
//! let bytes = std::fs::read("module.wasm")?;
//! let module = durskeyl::validate(&bytes)?;
//! for import in module.imports() {
//!     println!("{}.{}", import.module, import.name);
//! }
//! # Ok::<(), Box<dyn std::error::Error>>(())
//! ```
//!
//! Operators on vectors (SIMD) are judged only if you ask for them: [`Features::VECTORS`].
//!
//! A module that comes in pieces is written into a [`Validator`], which also has the calls of wasmparser's by which a module is validated.
//!
//! What is proved is the library that this crate links, and only if [`is_proved`]; this crate is neither proved nor part of the proof.
//! Calls may come from any number of threads.

mod error;
mod module;
mod parts;
mod settings;
pub mod sys;
mod types;
mod validator;

pub use error::{BinaryReaderError, Error, ErrorKind, Result, Shown};
pub use module::{Export, Exports, External, Import, Imports, Module};
pub use settings::{Features, Limit, Settings, UnknownWord, WasmFeatures};
pub use types::{
    AbstractHeapType, ArrayType, CompositeInnerType, CompositeType, ContType, CoreTypeId, EntityType, FieldType, FuncType, GlobalType, HeapType,
    MemoryType, RefType, StorageType, StructType, SubType, TableType, Types, ValType,
};
pub use validator::{MOST_HELD, Validator};

/// The module that these bytes are, if they are a valid one by the settings by default.
///
/// # Errors
///
/// If they are not valid; or if there is no verdict, for the lack of memory ([`Error::is_verdict`]).
pub fn validate(bytes: &[u8]) -> Result<Module<'_>, Error> {
    Settings::new().validate(bytes)
}

/// Whether these bytes are a valid module by the settings by default. `false` also if there was no memory to tell.
pub fn is_valid(bytes: &[u8]) -> bool {
    // SAFETY: a slice has the length that it says, and is lent for the call.
    unsafe { sys::durskeyl_is_valid(bytes.as_ptr(), bytes.len()) == 1 }
}

/// Whether the library says of itself that it was built by the toolchain from what it proved. The file PROVED, installed beside it, says
/// from which commit, or why not.
pub fn is_proved() -> bool {
    sys::durskeyl_version() >> 31 == 0
}

/// The library's version, whether it is proved, by which logic and from which commit: a line for people.
pub fn version_text() -> &'static str {
    // SAFETY: the text ends in a 0, and stays.
    unsafe { std::ffi::CStr::from_ptr(sys::durskeyl_version_text()) }.to_str().unwrap_or_default()
}

/// The version of the library: three numbers.
pub fn version() -> (u8, u8, u8) {
    let [_, first, second, third] = sys::durskeyl_version().to_be_bytes();
    (first, second, third)
}

impl Settings {
    /// The module that these bytes are, if they are a valid one by these settings.
    ///
    /// # Errors
    ///
    /// If they are not valid; or if there is no verdict, for the lack of memory or for the settings ([`Error::is_verdict`]).
    pub fn validate<'a>(&self, bytes: &'a [u8]) -> Result<Module<'a>, Error> {
        let mut fault = sys::Fault::none();
        // SAFETY: a slice is never null, has the length that it says, and is lent for the call; the fault is apart from it.
        match unsafe { sys::durskeyl_validate(&self.0, bytes.as_ptr(), bytes.len(), &mut fault) } {
            0 => Ok(Module::new(bytes)),
            kind => Err(Error::by(kind, fault, &self.0)),
        }
    }
}
