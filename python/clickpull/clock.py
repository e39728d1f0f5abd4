"""The clock of a dispatcher. It stands outside what is proved."""
import time
from threading import TIMEOUT_MAX, Lock
from typing import TYPE_CHECKING

if TYPE_CHECKING:
    import asyncio

SECOND = 1_000_000_000
"""How many nanoseconds a second has."""


class Clock:
    """The machine's monotonic clock, with a way to wait for threads and one for tasks of asyncio.

    A subclass may tell another time: a test passes in one whose time advances only as the test says, and so never sleeps. Several threads
    may call a clock at the same time. A wait may end early, since its caller looks again.
    """

    def now(self) -> int:
        """Returns the nanoseconds since a fixed moment. They never fall."""
        return time.monotonic_ns()

    def wait(self, woken: Lock, nanoseconds: int | None) -> None:
        """Waits until it acquires `woken`, or until so much time has passed; without end if `nanoseconds` is None."""
        woken.acquire(timeout=-1 if nanoseconds is None else min(nanoseconds / SECOND, TIMEOUT_MAX))

    async def wait_async(self, woken: "asyncio.Event", nanoseconds: int | None) -> None:
        """Waits until `woken` is set, or until so much time has passed; without end if `nanoseconds` is None."""
        import asyncio  # Importing it takes longer than all else here, and threads don't need it.

        timer = None if nanoseconds is None else asyncio.get_running_loop().call_later(nanoseconds / SECOND, woken.set)
        try:
            await woken.wait()
        finally:
            if timer:
                timer.cancel()
