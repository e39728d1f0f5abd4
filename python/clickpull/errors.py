"""What calls raise. It stands outside what is proved."""
from typing import Any

# The faults that a text can have, by number, as docs/FORMATS.md has them. A test compares them with those of the library.
FAULTS = {
    1: "Memory",
    2: "BadText",
    3: "UnknownClass",
    4: "BadArgument",
    5: "NameTwice",
    6: "UnknownName",
    7: "BadPort",
    8: "PortTwice",
    9: "PortMissing",
    10: "WrongKind",
    11: "NoDevice",
    13: "NotATree",
    18: "TooLarge",
}

# Those of them that have no place in the text. A test compares them with those of the library.
WITHOUT_PLACE = (1, 11, 18)


class Error(Exception):
    """A call that couldn't be made. Nothing has changed."""


class Shut(Error):
    """The router is shut, or the dispatcher is closed."""


class Ended(Shut):
    """The dispatcher is closed, and all its jobs were given."""


class UnknownSender(Error, LookupError):
    """The tree has no such sender."""


class UnknownDevice(Error, LookupError):
    """The tree has no such device."""


class BadLength(Error, ValueError):
    """The length of the packet isn't from 1 to 65,535 bytes."""


class AtEnd(Error, OverflowError):
    """The sender has offered 4,294,967,295 packets, the moment isn't from 0 to 2^44 - 1, or the device was pulled 2^63 times.

    Of a record: the moment isn't from 0 to 2^40 - 1, or there would be more than 1,000,000 lines.
    """


class TextFault(Error, ValueError):
    """A text makes no router. Faults 11 (NoDevice) and 18 (TooLarge) have no place in the text."""

    number: int
    """The fault's number, as docs/FORMATS.md has it."""
    name: str
    offset: int
    """At which byte of the text, from 0, and 0 if the fault has no place. A text in characters is taken as UTF-8."""
    line: int
    """At which line, from 1, and 1 if the fault has no place."""
    column: int
    """At which byte of the line, from 1, and 1 if the fault has no place."""
    explanation: str
    """Lines for a person: what is wrong and what was expected; if the fault has a place, that too, and the line of the text with a caret."""

    def __init__(self, number: int, offset: int, text: bytes, explanation: str) -> None:
        before = text[:offset]
        self.number = number
        self.name = FAULTS.get(number, "")
        self.offset = offset
        self.line = before.count(b"\n") + 1
        self.column = offset - before.rfind(b"\n")
        self.explanation = explanation
        place = "" if number in WITHOUT_PLACE else f" at line {self.line}, column {self.column}"
        super().__init__(f"fault {number}: {self.name}{place}")

    def __reduce__(self) -> tuple[Any, ...]:
        """What `copy` and `pickle` make a copy of. They don't call `__init__`, since the text isn't kept."""
        return type(self).__new__, (type(self), *self.args), self.__dict__
