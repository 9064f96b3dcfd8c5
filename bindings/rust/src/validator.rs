//! A validator: of a module that comes in pieces, and of whole bytes by the names of wasmparser.

use crate::{Error, Features, Module, Result, Settings, sys};
use std::io::{self, Write};
use std::ptr;

/// How many bytes a [`Validator`] holds at most between two pieces, unless it is told otherwise: 16 MiB, more than a function's body may have.
pub const MOST_HELD: u64 = 16 << 20;

/// Validates a module whose bytes are written into it, in pieces of any length; or whole bytes, by [`Validator::validate_all`].
///
/// ```no_run
/// let mut validator = durskeyl::Validator::new();
/// std::io::copy(&mut std::fs::File::open("module.wasm")?, &mut validator)?;
/// validator.finish()?;
/// # Ok::<(), Box<dyn std::error::Error>>(())
/// ```
///
/// Only [`Validator::finish`] gives a yes. Each section, and each body, is judged as soon as it is whole; a part of one is held. A refusal stays:
/// each later call answers the same.
///
/// Whoever calls wasmparser's `Validator` for verdicts alone changes `use wasmparser::` to `use durskeyl::`. Components are refused, and so are
/// operators on vectors, unless [`Features::VECTORS`] is among the features, as it is in [`Features::ENGINES`].
#[derive(Debug)]
pub struct Validator {
    settings: Settings,
    most: u64,
    state: State,
}

// How far a module in pieces is.
#[derive(Debug)]
enum State {
    Fresh,
    Begun(Handle),
    Refused(Error),
}

impl Validator {
    /// One by the features by default.
    pub fn new() -> Validator {
        Validator::new_with_features(Features::default())
    }

    /// One by these features, just as they are.
    pub fn new_with_features(features: Features) -> Validator {
        Validator::new_with_settings(Settings::new().with_features(features))
    }

    /// One by these features and limits.
    pub fn new_with_settings(settings: Settings) -> Validator {
        Validator { settings, most: MOST_HELD, state: State::Fresh }
    }

    /// This one, which holds at most so many bytes between two pieces. If more would have to be held there is no verdict.
    #[must_use]
    pub fn with_most_held(mut self, most: u64) -> Validator {
        self.most = most;
        self
    }

    /// The features.
    pub fn features(&self) -> Features {
        self.settings.features()
    }

    /// The module that these bytes are, if they are a valid one. What was written into this validator is apart from it.
    ///
    /// # Errors
    ///
    /// As [`Settings::validate`].
    pub fn validate_all<'a>(&mut self, bytes: &'a [u8]) -> Result<Module<'a>> {
        self.settings.validate(bytes)
    }

    /// Takes the next bytes of the module. Ok says nothing of the bytes to come.
    ///
    /// # Errors
    ///
    /// If no module that begins with the bytes so far is valid; or if there is no verdict, for the lack of memory, for the settings, or because
    /// more would have to be held than it may ([`Error::is_verdict`]).
    pub fn feed(&mut self, piece: &[u8]) -> Result<()> {
        let answer = match &mut self.state {
            State::Refused(error) => return Err(error.clone()),
            State::Begun(handle) => handle.take(piece),
            State::Fresh => Handle::begin(&self.settings, self.most).and_then(|mut handle| {
                let answer = handle.take(piece);
                self.state = State::Begun(handle);
                answer
            }),
        };
        if let Err(error) = &answer {
            self.state = State::Refused(error.clone());
        }
        answer
    }

    /// The verdict on all that was written: Ok if it is a valid module.
    ///
    /// # Errors
    ///
    /// As [`Validator::feed`].
    pub fn finish(mut self) -> Result<()> {
        self.feed(&[])?;
        match self.state {
            State::Begun(handle) => handle.end(),
            State::Refused(error) => Err(error),
            State::Fresh => unreachable!("a piece was taken"),
        }
    }

    /// Forgets what was written: the next piece is the first one of a module.
    pub fn reset(&mut self) {
        self.state = State::Fresh;
    }
}

impl Default for Validator {
    fn default() -> Validator {
        Validator::new()
    }
}

/// Writing hands over a piece, all of it. An error holds an [`Error`], which [`Validator::finish`] answers too.
impl Write for Validator {
    fn write(&mut self, piece: &[u8]) -> io::Result<usize> {
        self.feed(piece)?;
        Ok(piece.len())
    }

    fn flush(&mut self) -> io::Result<()> {
        Ok(())
    }
}

// A module that was begun, which is given back when this is dropped.
#[derive(Debug)]
struct Handle(sys::Pieces);

// SAFETY: the library keeps all of a module behind the handle, and nothing of the thread that began it. `&mut` keeps calls apart.
unsafe impl Send for Handle {}
// SAFETY: nothing is read through `&Handle`.
unsafe impl Sync for Handle {}

impl Handle {
    fn begin(settings: &Settings, most: u64) -> Result<Handle> {
        let mut handle = Handle(sys::Pieces { inside: ptr::null_mut(), begun: 0 });
        let mut fault = sys::Fault::none();
        // SAFETY: settings, handle and fault are lent for the call and apart; the handle is all 0.
        let kind = unsafe { sys::durskeyl_begin(&settings.0, most, &mut handle.0, &mut fault) };
        match kind {
            0 => Ok(handle),
            kind => Err(Error::by(kind, fault, &settings.0)),
        }
    }

    fn take(&mut self, piece: &[u8]) -> Result<()> {
        let mut fault = sys::Fault::none();
        // SAFETY: a slice is never null, and has the length that it says; it, the handle and the fault are lent for the call and apart.
        let kind = unsafe { sys::durskeyl_take(&mut self.0, piece.as_ptr(), piece.len(), &mut fault) };
        answer(kind, fault)
    }

    fn end(mut self) -> Result<()> {
        let mut fault = sys::Fault::none();
        // SAFETY: handle and fault are lent for the call and apart. The handle is empty after it, so that dropping it does nothing.
        let kind = unsafe { sys::durskeyl_end(&mut self.0, &mut fault) };
        answer(kind, fault)
    }
}

impl Drop for Handle {
    fn drop(&mut self) {
        // SAFETY: the handle is the library's, or empty.
        unsafe { sys::durskeyl_drop(&mut self.0) }
    }
}

fn answer(kind: u32, fault: sys::Fault) -> Result<()> {
    match kind {
        0 => Ok(()),
        kind => Err(Error::new(&sys::Fault { kind, ..fault })),
    }
}
