"""A clock whose time passes only as a test says. It stands outside what is proved."""
import asyncio
from collections import deque
from collections.abc import Callable
from threading import Lock

from clickpull import Clock


class ManualClock(Clock):
    """At each wait something is done that the test has said, if anything. Then whoever waits is woken, or else the time has passed.

    A wait without end that nobody ends is a lost wake-up, and fails.
    """

    def __init__(self) -> None:
        self.time = 0
        self.waits: list[int | None] = []
        """How long each wait would have taken, in nanoseconds."""
        self.meanwhile: deque[Callable[[], object]] = deque()
        """What is done in each wait, in order."""

    def now(self) -> int:
        return self.time

    def wait(self, woken: Lock, nanoseconds: int | None) -> None:
        self._do_something(nanoseconds)
        if not woken.acquire(blocking=False):
            self._pass(nanoseconds)

    async def wait_async(self, woken: asyncio.Event, nanoseconds: int | None) -> None:
        self._do_something(nanoseconds)
        # A wake-up of a task goes through its loop.
        await asyncio.sleep(0)
        if not woken.is_set():
            self._pass(nanoseconds)

    def _do_something(self, nanoseconds: int | None) -> None:
        self.waits.append(nanoseconds)
        if self.meanwhile:
            self.meanwhile.popleft()()

    def _pass(self, nanoseconds: int | None) -> None:
        assert nanoseconds is not None, "nobody wakes the one that waits"
        self.time += nanoseconds
