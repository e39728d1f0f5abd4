"""A router that threads and tasks share: some submit jobs, and others wait for the next one. It stands outside what is proved."""
from collections import deque
from collections.abc import AsyncIterator, Iterator
from dataclasses import dataclass
from queue import Empty
from types import TracebackType
from typing import TYPE_CHECKING, Generic, NoReturn, TypeVar

from clickpull.carrier import Carrier
from clickpull.clock import SECOND, Clock
from clickpull.errors import AtEnd, Ended, Shut, UnknownDevice
from clickpull.record import Record, Recorder
from clickpull.router import END_OF_MOMENTS, Router
from clickpull.takers import Taker, TaskTaker, ThreadTaker
from clickpull.values import Packet

if TYPE_CHECKING:
    from asyncio import AbstractEventLoop

T = TypeVar("T")


@dataclass(frozen=True, slots=True)
class Job(Generic[T]):
    """A value that a sender submitted, its place among all that this sender submitted, from 0, and its size."""

    sender: int
    number: int
    size: int
    value: T


@dataclass(frozen=True, slots=True)
class Submission(Generic[T]):
    """A job that was submitted, whether its queue accepted it, and the job that the queue evicted for it."""

    job: Job[T]
    accepted: bool
    evicted: Job[T] | None

    @property
    def lost(self) -> Job[T] | None:
        """The job that will not be done: the submitted one if it was refused, or else the evicted one, if there is one."""
        return self.evicted if self.accepted else self.job


def _job(packet: Packet, value: T) -> Job[T]:
    return Job(packet.sender, packet.number, packet.length, value)


class Dispatcher(Generic[T]):
    """Takes jobs from senders, and gives them to threads and tasks in the order in which a tree of schedulers pulls them.

    Any thread may call `submit`, `next`, `next_async` and `close` at any time. `submit` never waits. `next` waits until a job is due: until
    one is submitted, or a Shaper lets one pass. A tick is the time in which a Shaper of rate 1 lets one job pass.

    A dispatcher is a context manager, which closes it, and an iterator of the jobs of device 0. Loops `for job in dispatcher` and, in
    asyncio, `async for job in dispatcher` end once it is closed and all jobs were given. Each job is given once, even if several iterate.
    An event loop that is stopped or blocked delays no thread, and no task of another loop: they get its tasks' jobs.

    An interrupt, as by Ctrl-C, may come at any point of a call:

    - `submit`: the job was submitted or it was not; `router.accounts()` tells. The dispatcher drops a value that was refused or evicted.
    - `next`, and a loop over jobs: no job is lost. The next call for the device returns the job that the interrupted call didn't return.
      (On Python 3.10 a loop may lose the job that it was about to yield.)
    - `close`: calling it again closes the dispatcher.

    Cancelling a task that waits in `next_async` loses no job either. A signal handler or a finalizer (`__del__`, a callback of `weakref`)
    must call no dispatcher that the interrupted code may be calling: a call within a call may leave a taker asleep. A `queue.SimpleQueue`
    takes what they have, and a thread of yours submits it.

    A dispatcher with a `record` of its own adds a line for each job that is submitted, a refused one too, and for each pull that it makes, in
    the order of the router's calls. `clickpull script` repeats these calls, and so shows why a job came late. No interrupt leaves a call without
    its line, or a line without its call. After 1,000,000 lines or 2^40 ticks, or if an allocation for a line fails, nothing more is recorded:
    `recording` is false, the record has the beginning of what happened, and the dispatcher goes on.
    """

    # No wake-up is lost. The takers that wait for a device stand in lines: the threads in one, and the tasks of each event loop in one of
    # their own, since a loop may be stopped or blocked. The first in a line watches: it sleeps only until the moment that `due` returned.
    # The others sleep until they are woken. Whoever wakes a taker takes it out of its line. This holds whenever the lock is free:
    #
    #     If takers stand in a line of a device, and jobs are left for it or the dispatcher is closed, then the first in line watches, or
    #     a taker that was in the line before is about to look. A task is about to look from when it was woken until its loop runs it.
    #
    # - `submit` and `close` wake the first in each line. They do so before they change anything, with the lock held. So no interrupt comes
    #   between the change and the wake-up, and the woken takers look after the change.
    # - A taker that gets a job wakes the next in each line if there is something left to do. A taker that ends with an error wakes it, too.
    # - A taker that gets no job goes to the front of its line and watches. A new one goes to the back, if somebody watches already. A pull
    #   that gives none brings no job forward: none is due earlier than `due` returned to the first in line.
    #
    # Nobody tries again and again. A taker looks twice without sleeping only if a job is due and its pull gave none. Then a DRRSched saves
    # up for a long job, and each pull adds a quantum.

    def __init__(self, tree: str | bytes, *, tick: float = 0.001, clock: Clock | None = None, record: Record | None = None) -> None:
        """Opens a dispatcher from a tree's text. Its ticks take `tick` seconds and are counted from now.

        It works for 2^44 ticks: about 557 years with a `tick` of 0.001, 204 days with 1e-6, and 4.9 hours with 1e-9. After that `submit`
        raises `AtEnd`, and so does `next` if a job is left.

        Raises `TextFault` if the text makes no router, `ValueError` if a tick is shorter than a nanosecond, and `MemoryError`.
        """
        self._tick = round(tick * SECOND)
        if self._tick < 1:
            raise ValueError(f"a tick takes a nanosecond or more, and not {tick} seconds")
        self._carrier = Carrier[T](tree)
        self._router, self._lock = self._carrier.router, self._carrier._lock
        self._recorder = Recorder(record) if record is not None else None
        if self._recorder:
            self._router._call_offer, self._router._call_pull = self._recorder.offer, self._recorder.pull
        self._clock = clock or Clock()
        self._closed = False
        queues = self._router.queues()
        self._devices = {it.sender: queues[it.queue].device for it in self._router.accounts()}
        self._lines: list[dict[AbstractEventLoop | None, deque[Taker[T]]]] = [{} for _ in range(self._router.devices)]
        # What was pulled for a taker that left with an error, by sender and number.
        self._returned: list[dict[tuple[int, int], tuple[Packet, T]]] = [{} for _ in self._lines]
        self._start = self._clock.now()
        self._end = self._start + END_OF_MOMENTS * self._tick

    @property
    def router(self) -> Router:
        """The router, to ask about its accounts and queues. Offers and pulls go through the dispatcher alone."""
        return self._router

    @property
    def closed(self) -> bool:
        """Whether it is closed. Jobs may be left inside."""
        return self._closed

    @property
    def recording(self) -> bool:
        """Whether it has a record, which has all that happened so far."""
        return self._recorder is not None and self._recorder.goes_on

    def left(self, device: int = 0) -> int:
        """Returns how many jobs are left for the device."""
        with self._lock:
            return self._router.left(device) + self._carrier._waits(device) + len(self._returned[device])

    # Submit and close.

    def submit(self, sender: int, value: T, size: int = 1) -> Submission[T]:
        """Submits the sender's next job, and returns the outcome. Never waits.

        The size is what a DRRSched shares out: 1 to 65,535. Raises `Shut` if the dispatcher is closed, `UnknownSender`, `BadLength`, and
        `AtEnd` after 2^44 ticks or if the sender has submitted 4,294,967,295 jobs. Then nothing was submitted.
        """
        with self._lock:
            if self._closed:
                raise Shut("the dispatcher is closed")
            if self._clock.now() >= self._end:
                raise AtEnd("the dispatcher has worked for 2^44 ticks, and gives no more jobs")
            if sender in self._devices:
                self._wake(self._devices[sender])
            it = self._carrier.offer(sender, size, value)
        evicted = _job(it.evicted.packet, it.evicted.value) if it.evicted else None
        return Submission(_job(it.packet, value), it.accepted, evicted)

    def close(self) -> None:
        """Ends submitting. Jobs that are inside are still given. After the last one, `next` raises `Ended`, and loops over jobs end."""
        with self._lock:
            for device in range(len(self._lines)):
                self._wake(device)
            self._closed = True

    def __enter__(self) -> "Dispatcher[T]":
        return self

    def __exit__(self, kind: type[BaseException] | None, error: BaseException | None, trace: TracebackType | None) -> None:
        self.close()

    def __reduce__(self) -> NoReturn:
        raise TypeError("a dispatcher can't be copied")

    # Take.

    def next(self, timeout: float | None = None, device: int = 0) -> Job[T]:
        """Waits until a job of the device is due, and returns it.

        If `timeout` is given and no job is due within so many seconds, it raises `queue.Empty`, as `queue.Queue.get` does. With a timeout
        of 0 it doesn't wait. Raises `Ended` if the dispatcher is closed and no job is left, `UnknownDevice`, and `AtEnd` after 2^44 ticks.
        """
        taker: ThreadTaker[T] = ThreadTaker(self._need_device(device))
        deadline = self._deadline(timeout)
        try:
            while (job := self._look(taker, deadline)) is None:
                self._clock.wait(taker.woken, taker.sleep)
        except BaseException:
            self._leave(taker)
            raise
        return job

    async def next_async(self, device: int = 0) -> Job[T]:
        """Waits as `next` does, in a task of asyncio. To wait for a limited time, use `asyncio.wait_for`."""
        taker: TaskTaker[T] = TaskTaker(self._need_device(device))
        try:
            while (job := self._look(taker, None)) is None:
                await self._clock.wait_async(taker.woken, taker.sleep)
                taker.woken.clear()
        except BaseException:
            self._leave(taker)
            raise
        return job

    def jobs(self, device: int = 0) -> Iterator[Job[T]]:
        """Yields the jobs of a device when they are due, and ends once the dispatcher is closed and none is left."""
        while True:
            try:
                job = self.next(device=device)
            except Ended:
                return
            yield job

    async def jobs_async(self, device: int = 0) -> AsyncIterator[Job[T]]:
        """Yields the jobs of a device as `jobs` does, in a task of asyncio."""
        while True:
            try:
                job = await self.next_async(device)
            except Ended:
                return
            yield job

    def __iter__(self) -> Iterator[Job[T]]:
        return self.jobs()

    def __aiter__(self) -> AsyncIterator[Job[T]]:
        return self.jobs_async()

    # What takers do.

    def _look(self, taker: Taker[T], deadline: int | None) -> Job[T] | None:
        """Returns a job that is due. If there is none, puts the taker in line, and sets how long it may sleep."""
        with self._lock:
            if not taker.is_new:
                self._step_out(taker)
            now = self._clock.now()
            moment = (now - self._start) // self._tick
            due = self._due(taker.device)
            if due is not None and due <= moment:
                return self._take(taker, moment)
            if due is None and self._closed:
                raise Ended("the dispatcher is closed, and all jobs were given")
            if deadline is not None and deadline <= now:
                raise Empty
            watches = self._stand_in_line(taker)
            ends = [] if deadline is None else [deadline]
            if due is not None and watches:
                ends.append(self._start + due * self._tick)
            taker.sleep = min(ends) - now if ends else None
            return None

    def _due(self, device: int) -> int | None:
        """The earliest moment at which a job could be given, or None if none is left.

        A taker pulls only from that moment on, since how often takers look must not change what schedulers do. A DRRSched that finds an
        input without a packet resets the deficit of that input to 0.
        """
        if self._returned[device] or self._carrier._waits(device):
            return 0
        return self._router.due(device)

    def _take(self, taker: Taker[T], moment: int) -> Job[T] | None:
        """Returns a job that was pulled for a taker that left with an error, or else the job that a pull at this moment gives."""
        returned = self._returned[taker.device]
        if returned:
            first = min(returned)
            taker.pair = returned[first]
            del returned[first]
        else:
            self._carrier._give(taker.device, lambda it: self._router._pull(moment, taker.device, it.packet), taker)
        if taker.pair is None:
            taker.sleep = 0
            return None
        self._pass_on(taker.device)
        return _job(*taker.pair)

    def _leave(self, taker: Taker[T]) -> None:
        """Takes a taker that ends with an error out of its line, keeps what was pulled for it, and wakes the next."""
        with self._lock:
            self._step_out(taker)
            if taker.pair is not None:
                self._returned[taker.device][taker.pair[0][:2]] = taker.pair
            self._wake(taker.device)

    # The lines. Their callers hold the lock.

    def _stand_in_line(self, taker: Taker[T]) -> bool:
        """Puts a taker in its line, at the front unless it is new, and returns whether it is the first."""
        line = self._lines[taker.device].setdefault(taker.loop, deque())
        if taker.is_new:
            line.append(taker)
        else:
            line.appendleft(taker)
        taker.is_new = False
        return line[0] is taker

    def _step_out(self, taker: Taker[T]) -> None:
        """Takes a taker out of its line, unless whoever woke it did."""
        line = self._lines[taker.device].get(taker.loop)
        if line and taker in line:
            line.remove(taker)

    def _pass_on(self, device: int) -> None:
        """Wakes the next in each line if it has something to do: take a job that is left, or end."""
        if any(self._lines[device].values()) and (self._closed or self.left(device)):
            self._wake(device)

    def _wake(self, device: int) -> None:
        """Wakes the first in each line, and then takes it out of the line. So an interrupt in between loses nothing.

        Drops lines that are empty or whose loop is closed.
        """
        lines = self._lines[device]
        for loop, line in list(lines.items()):
            if line and line[0].wake():
                line.popleft()
            else:
                del lines[loop]

    # Tests of arguments.

    def _need_device(self, device: int) -> int:
        if not 0 <= device < len(self._lines):
            raise UnknownDevice(f"there is no device {device}")
        return device

    def _deadline(self, timeout: float | None) -> int | None:
        """When a wait ends, in nanoseconds of the clock."""
        if timeout is None:
            return None
        if timeout < 0:
            raise ValueError(f"a timeout is 0 or more, and not {timeout}")
        return self._clock.now() + round(timeout * SECOND)
