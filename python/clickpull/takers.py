"""Those who wait for a job of a dispatcher: threads, and tasks of asyncio. They stand outside what is proved."""
from threading import Lock
from typing import TYPE_CHECKING, TypeVar

from clickpull.carrier import Given

if TYPE_CHECKING:
    from asyncio import AbstractEventLoop

T = TypeVar("T")


class Taker(Given[T]):
    """A thread or a task that waits for a job of a device. A job that was pulled for it is stored here until it returns to its caller."""

    is_new = True
    """Whether it hasn't stood in line yet."""
    sleep: int | None = None
    """How many nanoseconds it may sleep unless it is woken; without end if this is None."""
    loop: "AbstractEventLoop | None" = None
    """The event loop of a task, or None for a thread."""

    def __init__(self, device: int) -> None:
        self.device = device

    def wake(self) -> bool:
        """Wakes it, unless it was woken already, and returns whether it can still run. The caller holds the dispatcher's lock."""
        raise NotImplementedError


class ThreadTaker(Taker[T]):
    """A thread, which sleeps until it acquires a lock."""

    def __init__(self, device: int) -> None:
        super().__init__(device)
        self.woken = Lock()
        self.woken.acquire()

    def wake(self) -> bool:
        """Releases the lock. Only this method does, and under the dispatcher's lock, so that it is never released twice."""
        if self.woken.locked():
            self.woken.release()
        return True


class TaskTaker(Taker[T]):
    """A task of asyncio, which sleeps until an event is set. Any thread may wake it."""

    loop: "AbstractEventLoop"

    def __init__(self, device: int) -> None:
        import asyncio  # Importing it takes longer than all else here, and threads don't need it.

        super().__init__(device)
        self.woken = asyncio.Event()
        self.loop = asyncio.get_running_loop()

    def wake(self) -> bool:
        """Has the task's loop set the event: at once, or when it runs again. If the loop is closed, the task never runs again."""
        try:
            self.loop.call_soon_threadsafe(self.woken.set)
        except RuntimeError:
            return False
        return True
