//! What calls of the C library return.

use crate::error::{Error, TextFault, MEMORY};
use crate::layout::Fault;

// Statuses, which a test compares with the header.
pub(crate) const OK: u32 = 0;
pub(crate) const NONE: u32 = 1;
pub(crate) const UNKNOWN_SENDER: u32 = 4;
pub(crate) const UNKNOWN_DEVICE: u32 = 5;
pub(crate) const BAD_LENGTH: u32 = 6;
pub(crate) const AT_END: u32 = 7;
pub(crate) const FAULT: u32 = 9;
pub(crate) const FULL: u32 = 10;
pub(crate) const BAD_ROOM: u32 = 11;
pub(crate) const HANDED_OUT: u32 = 12;

/// Whether a status says that it is done; `Ok(false)` is `CLK_NONE`.
#[inline]
pub(crate) fn done(status: u32) -> Result<bool, Error> {
    match status {
        OK => Ok(true),
        NONE => Ok(false),
        _ => Err(error(status)),
    }
}

/// The error of a status.
///
/// # Panics
///
/// If the status is none that a call can return here: types rule out `CLK_SHUT`, `CLK_NULL` and `CLK_RECLAIMED`.
#[cold]
fn error(status: u32) -> Error {
    match status {
        UNKNOWN_SENDER => Error::UnknownSender,
        UNKNOWN_DEVICE => Error::UnknownDevice,
        BAD_LENGTH => Error::BadLength,
        AT_END => Error::AtEnd,
        FULL => Error::Full,
        BAD_ROOM => Error::BadRoom,
        HANDED_OUT => Error::HandedOut,
        _ => panic!("the library returned status {status}, which it cannot return here"),
    }
}

/// What an opening returned: `opened` if it is right.
pub(crate) fn opened<T>(status: u32, fault: &Fault, text: &str, opened: impl FnOnce() -> T) -> Result<T, Error> {
    match (status, fault.number) {
        (FAULT, MEMORY) => Err(Error::OutOfMemory),
        (FAULT, _) => Err(Error::Text(TextFault::new(fault, text))),
        _ => done(status).map(|_| opened()),
    }
}

#[cfg(test)]
mod tests {
    use super::{opened, FAULT, OK};
    use crate::error::{Error, MEMORY, NAMES};
    use crate::layout::Fault;

    /// What an opening returns that ended with this fault.
    fn failed(number: u32) -> Error {
        opened(FAULT, &Fault { number, offset: 0 }, "", || panic!("nothing was opened")).unwrap_err()
    }

    #[test]
    fn a_refused_allocation_is_no_fault_of_the_text() {
        assert_eq!(failed(MEMORY), Error::OutOfMemory);
        for (number, name) in NAMES.into_iter().filter(|it| it.0 != MEMORY) {
            assert!(matches!(failed(number), Error::Text(it) if it.number() == number), "{name}");
        }
        assert_eq!(opened(OK, &Fault::default(), "", || 5), Ok(5));
    }
}
