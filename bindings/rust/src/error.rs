//! Why there is no valid module.

use crate::settings::{Features, Limit, refused};
use crate::sys;
use std::{fmt, io};

// What the library says of an operator on vectors if they are not judged.
const VECTORS_MESSAGE: &str = "unexpected SIMD opcode: 0xfd";

/// What kind of fault was found.
#[derive(Clone, Copy, Debug, PartialEq, Eq, Hash)]
#[non_exhaustive]
pub enum ErrorKind {
    /// The bytes end too early; at least so many more would be asked for.
    EndOfData { needed: u64 },
    /// Invalid under these features; a feature that would allow what is there.
    MissingFeature(Features),
    /// Any other fault of the bytes.
    Invalid,
    /// No verdict: memory was refused.
    OutOfMemory,
    /// No verdict: a feature or a limit that the library does not know, or a limit above its ceiling.
    BadSettings,
    /// No verdict: more bytes would have to be held than a module in pieces may hold.
    TooLong,
    /// No verdict: a number that this crate does not know.
    Unknown(u32),
}

/// Why there is no valid module: the bytes are none, or there is no verdict ([`Error::is_verdict`]).
#[derive(Clone, Debug, PartialEq, Eq)]
pub struct Error {
    kind: ErrorKind,
    offset: u64,
    limit: Option<Limit>,
    message: Box<str>,
}

impl Error {
    pub(crate) fn new(fault: &sys::Fault) -> Error {
        let kind = match fault.kind {
            1 => ErrorKind::EndOfData { needed: fault.detail },
            2 => ErrorKind::MissingFeature(Features::from_bits_retain(fault.detail)),
            3 => ErrorKind::OutOfMemory,
            5 => ErrorKind::Invalid,
            6 => ErrorKind::BadSettings,
            7 => ErrorKind::TooLong,
            kind => ErrorKind::Unknown(kind),
        };
        let text = fault.text.get(..fault.text_length as usize).unwrap_or_default();
        let message = if Error::tells(kind) { String::from_utf8_lossy(text).into() } else { "".into() };
        let limit = fault.limit.checked_sub(1).and_then(Limit::at);
        Error { kind, offset: fault.offset, limit, message }
    }

    /// What a call by these settings answered; of bad ones the message tells what is bad.
    pub(crate) fn by(kind: u32, fault: sys::Fault, settings: &sys::Settings) -> Error {
        let mut error = Error::new(&sys::Fault { kind, ..fault });
        if error.kind == ErrorKind::BadSettings {
            error.message = refused(settings).into();
        }
        error
    }

    fn tells(kind: ErrorKind) -> bool {
        matches!(kind, ErrorKind::EndOfData { .. } | ErrorKind::MissingFeature(_) | ErrorKind::Invalid)
    }

    /// What kind of fault it is.
    pub fn kind(&self) -> ErrorKind {
        self.kind
    }

    /// Where it was found, in the bytes.
    pub fn offset(&self) -> u64 {
        self.offset
    }

    /// The limit that refused the bytes, if one did. In pieces a limit of one table or one memory is not told.
    pub fn limit(&self) -> Option<Limit> {
        self.limit
    }

    /// What is wrong, for people, in no stable wording. It may hold a name of the module, with any characters: `Display` escapes those
    /// that could forge a line or hide one.
    pub fn message(&self) -> &str {
        &self.message
    }

    /// What a caller can do about it, if something is known: an operator on vectors is refused unless `Features::VECTORS` is set.
    pub fn hint(&self) -> Option<&'static str> {
        (self.kind == ErrorKind::Invalid && &*self.message == VECTORS_MESSAGE).then_some("Features::VECTORS judges operators on vectors")
    }

    /// Whether the bytes were found invalid. If not, nothing is known of them.
    pub fn is_verdict(&self) -> bool {
        Error::tells(self.kind)
    }
}

/// `invalid at 0x17: MESSAGE`, and in parentheses what a caller can do, if that is known; or why there is no verdict.
impl fmt::Display for Error {
    fn fmt(&self, f: &mut fmt::Formatter<'_>) -> fmt::Result {
        match self.kind {
            ErrorKind::OutOfMemory => f.write_str("out of memory"),
            ErrorKind::BadSettings if self.message.is_empty() => f.write_str("bad settings"),
            ErrorKind::BadSettings => write!(f, "bad settings: {}", self.message),
            ErrorKind::TooLong => f.write_str("an item is longer than may be held"),
            ErrorKind::Unknown(kind) => write!(f, "no verdict: unknown kind {kind}"),
            _ => write!(f, "invalid at {:#x}: {}", self.offset, Shown(&self.message)),
        }?;
        self.hint().map_or(Ok(()), |hint| write!(f, " ({hint})"))
    }
}

impl std::error::Error for Error {}

/// The name that wasmparser gives to [`Error`].
pub type BinaryReaderError = Error;

/// What a call answers that may find no valid module.
pub type Result<T, E = Error> = std::result::Result<T, E>;

impl From<Error> for io::Error {
    /// Its kind is `InvalidData` if the bytes were found invalid, `OutOfMemory`, or `InvalidInput` for bad settings.
    fn from(error: Error) -> io::Error {
        let kind = match error.kind {
            ErrorKind::OutOfMemory => io::ErrorKind::OutOfMemory,
            ErrorKind::BadSettings => io::ErrorKind::InvalidInput,
            _ if error.is_verdict() => io::ErrorKind::InvalidData,
            _ => io::ErrorKind::Other,
        };
        io::Error::new(kind, error)
    }
}

/// A text of others, written so that it stays within its line: control characters, those that end a line for some readers and those that
/// turn its order are written as `\u{N}`, as `wasm-check` does.
#[derive(Clone, Copy, Debug)]
pub struct Shown<'a>(pub &'a str);

impl fmt::Display for Shown<'_> {
    fn fmt(&self, f: &mut fmt::Formatter<'_>) -> fmt::Result {
        for c in self.0.chars() {
            let turns = matches!(c, '\u{61c}' | '\u{200e}' | '\u{200f}' | '\u{202a}'..='\u{202e}' | '\u{2066}'..='\u{2069}');
            if c.is_control() || turns || matches!(c, '\u{2028}' | '\u{2029}') {
                write!(f, "\\u{{{:x}}}", c as u32)?;
            } else {
                write!(f, "{c}")?;
            }
        }
        Ok(())
    }
}
