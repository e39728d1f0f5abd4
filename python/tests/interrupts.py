"""Does something between bytecodes of the module, as a signal or another thread may. It stands outside what is proved."""
import dis
import signal
import sys
from collections.abc import Callable, Container, Iterator
from contextlib import contextmanager
from functools import cache
from pathlib import Path
from types import CodeType, FrameType
from typing import Any

import clickpull

MODULE = str(Path(clickpull.__file__).parent)


@cache
def everywhere(code: CodeType) -> Container[int]:
    """The places of all bytecodes."""
    return frozenset(it.offset for it in dis.get_instructions(code))


@cache
def where_signals_come(code: CodeType) -> Container[int]:
    """The places at which CPython lets a signal's handler run: after a call, and where a function begins. Loops here all have calls."""
    instructions = list(dis.get_instructions(code))
    checked = [it.opname.startswith("CALL") or it.opname == "RESUME" for it in instructions]
    return frozenset(it.offset for it, is_after in zip(instructions[1:], checked) if is_after)


class At:
    """While it is entered, does something before the bytecode of the module with this number, counted from 0 over the places of each code."""

    def __init__(self, number: int, act: Callable[[], None], places: Callable[[CodeType], Container[int]]) -> None:
        self._number = number
        self._act = act
        self._places = places
        self.done = False
        """Whether the bytecode was reached."""

    def __enter__(self) -> "At":
        sys.settrace(self._trace)
        return self

    def __exit__(self, *_: object) -> None:
        sys.settrace(None)

    def _trace(self, frame: FrameType, event: str, _: Any) -> Any:
        if not frame.f_code.co_filename.startswith(MODULE):
            return None
        frame.f_trace_opcodes = True
        if event == "opcode" and not self.done and frame.f_lasti in self._places(frame.f_code):
            self._number -= 1
            if self._number < 0:
                self.done = True
                self._act()
        return self._trace


def each(act: Callable[[], None], places: Callable[[CodeType], Container[int]] = everywhere) -> Iterator[At]:
    """One for each bytecode at these places, up to the first that isn't reached by what its caller does while it is entered."""
    number = 0
    while True:
        at = At(number, act, places)
        yield at
        if not at.done:
            return
        number += 1


def interrupt() -> None:
    """Does what Ctrl-C does."""
    raise KeyboardInterrupt


@contextmanager
def timer(in_module: bool = False) -> Iterator[Callable[[float], None]]:
    """Sets a timer that interrupts as Ctrl-C does, after some seconds; with `in_module` only where the module runs or was called from."""

    def alarm(_: int, frame: FrameType | None) -> None:
        if not in_module or runs_module(frame):
            raise KeyboardInterrupt

    def after(seconds: float) -> None:
        signal.setitimer(signal.ITIMER_REAL, seconds)

    before = signal.signal(signal.SIGALRM, alarm)
    try:
        yield after
    finally:
        signal.setitimer(signal.ITIMER_REAL, 0)
        signal.signal(signal.SIGALRM, before)


def runs_module(frame: FrameType | None) -> bool:
    """Whether a frame, or one that called it, is of the module."""
    while frame and not frame.f_code.co_filename.startswith(MODULE):
        frame = frame.f_back
    return frame is not None
