//! One module on several threads.

use crate::{Error, Module, Settings, sys};
use std::num::NonZeroU32;
use std::thread;

impl Settings {
    /// The module that these bytes are, as [`Settings::validate`] says, by so many threads: each reads all sections, and judges one body in
    /// so many. If several bodies are not valid, the error is that of the first.
    ///
    /// # Errors
    ///
    /// As [`Settings::validate`].
    ///
    /// # Panics
    ///
    /// If the system starts no thread.
    pub fn validate_on<'a>(&self, threads: NonZeroU32, bytes: &'a [u8]) -> Result<Module<'a>, Error> {
        let parts = threads.get();
        let errors: Vec<Error> = thread::scope(|scope| {
            let others: Vec<_> = (1..parts).map(|part| scope.spawn(move || self.validate_part(bytes, part, parts))).collect();
            let own = self.validate_part(bytes, 0, parts);
            others.into_iter().map(|it| it.join().expect("a part does not panic")).chain([own]).flatten().collect()
        });
        match errors.into_iter().min_by_key(|it| (!it.is_verdict(), it.offset())) {
            Some(error) => Err(error),
            None => Ok(Module::new(bytes)),
        }
    }

    // Why one part is refused, if it is.
    fn validate_part(&self, bytes: &[u8], part: u32, parts: u32) -> Option<Error> {
        let mut fault = sys::Fault::none();
        // SAFETY: as in `validate`.
        match unsafe { sys::durskeyl_validate_part(&self.0, bytes.as_ptr(), bytes.len(), part, parts, &mut fault) } {
            0 => None,
            kind => Some(Error::by(kind, fault, &self.0)),
        }
    }
}
