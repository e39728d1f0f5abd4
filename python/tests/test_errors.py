"""Tests of what calls raise. They stand outside what is proved."""
import copy
import ctypes
import pickle
from collections.abc import Iterator

import pytest

import clickpull
from clickpull import Error, Router, TextFault
from clickpull.errors import FAULTS, WITHOUT_PLACE
from clickpull.library import Fault
from clickpull.router import _explained

# A text with more bytes than a text may have.
LARGE = ((1 << 20) + 1) * " "


def errors() -> Iterator[Error]:
    """An error of each class."""
    for it in (getattr(clickpull, name) for name in clickpull.__all__):
        if isinstance(it, type) and issubclass(it, Error) and it is not TextFault:
            yield it("what is wrong")
    with pytest.raises(TextFault) as raised:
        Router("a :: Sender(0);\nq :: Heap(3);")
    yield raised.value


@pytest.mark.parametrize("error", errors(), ids=lambda it: type(it).__name__)
def test_a_copy_of_an_error_says_the_same(error: Error) -> None:
    copies = [copy.copy(error), copy.deepcopy(error)]
    copies += [pickle.loads(pickle.dumps(error, protocol)) for protocol in range(pickle.HIGHEST_PROTOCOL + 1)]
    for it in copies:
        assert type(it) is type(error) and str(it) == str(error) and it.args == error.args and vars(it) == vars(error)


def test_which_faults_have_no_place() -> None:
    """The library explains a fault that has a place with that place."""
    text = (ctypes.c_uint8 * 1)(ord("a"))
    for number in FAULTS:
        explanation = _explained(text, len(text), Fault(number, 0))
        assert explanation.startswith("1:1: ") == (number not in WITHOUT_PLACE)


@pytest.mark.parametrize("text, message", [("", "fault 11: NoDevice"), (LARGE, "fault 18: TooLarge")], ids=["empty", "large"])
def test_a_fault_without_a_place(text: str, message: str) -> None:
    with pytest.raises(TextFault) as raised:
        Router(text)
    it = raised.value
    assert str(it) == message and (it.offset, it.line, it.column) == (0, 1, 1)
