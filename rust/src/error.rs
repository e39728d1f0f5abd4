//! Why calls fail.

use std::fmt;

use crate::ffi::explain;
use crate::layout::Fault;

/// Why a call failed. A call that fails changes nothing; a call for many says how far it came.
#[derive(Clone, Debug, PartialEq, Eq)]
#[non_exhaustive]
pub enum Error {
    /// The text makes no router.
    Text(TextFault),
    /// An allocation of the C library failed while a router was opened, or a record couldn't grow.
    OutOfMemory,
    /// The tree has no sender with this number.
    UnknownSender,
    /// The tree has no device with this number.
    UnknownDevice,
    /// The length of a packet is not from 1 to 65,535.
    BadLength,
    /// The sender has offered 4,294,967,295 packets, the moment is 2^44 ticks or more, or the device was pulled 2^63 times. Of a record: the
    /// moment is 2^40 ticks or more, or there would be more than 1,000,000 lines.
    AtEnd,
    /// The inlet has no room for the packet now. Pause, and offer it again.
    Full,
    /// The room of inlets is not from 1 to 16,777,216.
    BadRoom,
    /// The inlet of this sender was handed out before.
    HandedOut,
}

impl fmt::Display for Error {
    fn fmt(&self, f: &mut fmt::Formatter<'_>) -> fmt::Result {
        match self {
            Error::Text(it) => it.fmt(f),
            Error::OutOfMemory => f.write_str("memory is exhausted"),
            Error::UnknownSender => f.write_str("there is no such sender"),
            Error::UnknownDevice => f.write_str("there is no such device"),
            Error::BadLength => f.write_str("the length of a packet is not from 1 to 65,535"),
            Error::AtEnd => f.write_str("numbers or moments are at their end"),
            Error::Full => f.write_str("there is no room now"),
            Error::BadRoom => f.write_str("the room of inlets is not from 1 to 16,777,216"),
            Error::HandedOut => f.write_str("the inlet was handed out before"),
        }
    }
}

impl std::error::Error for Error {}

/// Why a text makes no router, and where.
///
/// ```
/// use clickpull::{Error, Router};
///
/// let Err(Error::Text(fault)) = Router::open("a :: Sender(0);\nq :: Heap(3);") else { panic!() };
/// assert_eq!((fault.number(), fault.name()), (3, "UnknownClass"));
/// assert_eq!((fault.offset(), fault.line(), fault.column()), (21, 2, 6));
/// assert_eq!(fault.to_string(), "fault 3: UnknownClass at line 2, column 6");
/// assert!(fault.explanation().starts_with("2:6: there is no class 'Heap'\n    q :: Heap(3);\n         ^\n"));
/// ```
#[derive(Clone, Debug, PartialEq, Eq)]
pub struct TextFault {
    number: u32,
    offset: usize,
    line: usize,
    column: usize,
    explanation: String,
}

impl TextFault {
    /// A fault of a text.
    pub(crate) fn new(fault: &Fault, text: &str) -> Self {
        let (number, offset) = (fault.number, fault.offset as usize);
        let before = &text.as_bytes()[..offset.min(text.len())];
        let line = 1 + before.iter().filter(|&&it| it == b'\n').count();
        let column = before.iter().rev().take_while(|&&it| it != b'\n').count() + 1;
        TextFault { number, offset, line, column, explanation: explain(text, fault) }
    }

    /// The number of the fault, as in the project's `docs/FORMATS.md`.
    pub fn number(&self) -> u32 {
        self.number
    }

    /// The name of the fault, as the program `clickpull` prints it.
    pub fn name(&self) -> &'static str {
        NAMES.iter().find(|it| it.0 == self.number).map_or("", |it| it.1)
    }

    /// At which byte of the text it is, from 0. It is 0 for a fault without a place: `NoDevice` or `TooLarge`.
    pub fn offset(&self) -> usize {
        self.offset
    }

    /// At which line it is, from 1. It is 1 for a fault without a place.
    pub fn line(&self) -> usize {
        self.line
    }

    /// At which byte of its line it is, from 1. It is 1 for a fault without a place.
    pub fn column(&self) -> usize {
        self.column
    }

    /// Lines for a person: the place, the line of the text with a caret, what is wrong, and what was expected.
    pub fn explanation(&self) -> &str {
        &self.explanation
    }
}

impl fmt::Display for TextFault {
    fn fmt(&self, f: &mut fmt::Formatter<'_>) -> fmt::Result {
        write!(f, "fault {}: {}", self.number, self.name())?;
        if WITHOUT_PLACE.contains(&self.number) {
            return Ok(());
        }
        write!(f, " at line {}, column {}", self.line, self.column)
    }
}

impl std::error::Error for TextFault {}

/// The fault of a failed allocation.
pub(crate) const MEMORY: u32 = 1;

/// The faults that have no place in the text. A test compares them with explanations.
const WITHOUT_PLACE: [u32; 3] = [MEMORY, 11, 18];

/// The names of faults. A test compares them with those of the header.
pub(crate) const NAMES: [(u32, &str); 13] = [
    (MEMORY, "Memory"),
    (2, "BadText"),
    (3, "UnknownClass"),
    (4, "BadArgument"),
    (5, "NameTwice"),
    (6, "UnknownName"),
    (7, "BadPort"),
    (8, "PortTwice"),
    (9, "PortMissing"),
    (10, "WrongKind"),
    (11, "NoDevice"),
    (13, "NotATree"),
    (18, "TooLarge"),
];

/// An offer to an [`Inlet`](crate::Inlet) that was not accepted, with its value.
#[derive(Clone, PartialEq, Eq)]
pub struct Rejected<T> {
    /// The value that was offered.
    pub value: T,
    /// Why it was not accepted: [`Error::Full`], [`Error::BadLength`] or [`Error::AtEnd`].
    pub error: Error,
}

impl<T> fmt::Debug for Rejected<T> {
    fn fmt(&self, f: &mut fmt::Formatter<'_>) -> fmt::Result {
        f.debug_struct("Rejected").field("error", &self.error).finish_non_exhaustive()
    }
}

impl<T> fmt::Display for Rejected<T> {
    fn fmt(&self, f: &mut fmt::Formatter<'_>) -> fmt::Result {
        self.error.fmt(f)
    }
}

impl<T> std::error::Error for Rejected<T> {}

#[cfg(test)]
mod tests {
    use super::{TextFault, NAMES};
    use crate::layout::Fault;
    use crate::Router;

    #[test]
    fn a_fault_without_a_place_names_none() {
        let it = Router::open("").unwrap_err();
        assert_eq!(it.to_string(), "fault 11: NoDevice");
    }

    /// A fault has a place if its explanation begins with one.
    #[test]
    fn faults_have_the_places_of_their_explanations() {
        for (number, name) in NAMES {
            let it = TextFault::new(&Fault { number, offset: 0 }, "");
            let has_place = it.explanation().starts_with("1:1: ");
            assert_eq!(it.to_string().ends_with(" at line 1, column 1"), has_place, "{name}");
        }
    }
}
