"""The account of a front: what became of each job. It stands outside what is proved."""
from collections import Counter
from collections.abc import Callable, Iterable
from concurrent.futures import Future
from dataclasses import dataclass, field
from enum import Enum
from threading import RLock
from typing import Any


class State(str, Enum):
    """The state of a job. From `DONE`, `REFUSED` and `FAILED` it never moves."""

    WAITING = "waiting"
    """In the queue of its tenant."""
    IN_FLIGHT = "in flight"
    """Handed to the cluster, which may run it more than once."""
    DONE = "done"
    """Its result has come back."""
    REFUSED = "refused"
    """Never handed to the cluster: its queue was full, or evicted it, or the front was closed."""
    FAILED = "failed"
    """Handed to the cluster, which gave up on it."""


# The states to which a job moves from each state.
NEXT = {State.WAITING: (State.IN_FLIGHT, State.REFUSED), State.IN_FLIGHT: (State.DONE, State.FAILED)}


class WrongMove(Exception):
    """A job can't move to this state, as one can't that is done already."""


@dataclass(eq=False, slots=True)
class Work:
    """A job: what the cluster calls, for whom, and how large it is."""

    tenant: str
    size: int
    call: Callable[..., Any]
    arguments: tuple[Any, ...]
    retries: int
    """How often Dask runs it again if it raises."""
    outcome: "Future[Any]" = field(default_factory=Future)
    state: State | None = None


@dataclass(frozen=True, slots=True)
class Row:
    """How many jobs a tenant submitted, how many of them are in each state, and the sizes of those that were handed over."""

    tenant: str
    submitted: int
    states: Counter[State]
    size: int

    @property
    def adds_up(self) -> bool:
        """Whether each job that was submitted is in one state."""
        return self.submitted == self.states.total()


class Account:
    """Knows the state of each job. A job is settled once: a second time raises `WrongMove`.

    Threads may share an account. Those who need several calls in one step hold its `lock`.
    """

    def __init__(self, tenants: Iterable[str]) -> None:
        self.lock = RLock()
        self._submitted = {it: 0 for it in tenants}
        self._states: dict[str, Counter[State]] = {it: Counter() for it in self._submitted}
        self._sizes = {it: 0 for it in self._submitted}
        self._open: set[Work] = set()
        self._watchers: list[Callable[[Work], None]] = []

    def watch(self, watcher: Callable[[Work], None]) -> None:
        """Has the watcher called after each move of a job, with the lock held."""
        self._watchers.append(watcher)

    def enter(self, work: Work) -> None:
        """Enters a job that was submitted."""
        with self.lock:
            if work.state is not None:
                raise WrongMove(f"a job of {work.tenant} is {work.state.value} already")
            self._submitted[work.tenant] += 1
            self._open.add(work)
            self._put(work, State.WAITING)

    def move(self, work: Work, state: State) -> None:
        """Moves a job to its next state. Raises `WrongMove` if that isn't one, and changes nothing."""
        with self.lock:
            if work.state is None or state not in NEXT.get(work.state, ()):
                raise WrongMove(f"a job of {work.tenant} can't be {state.value}: it is {work.state and work.state.value}")
            self._states[work.tenant][work.state] -= 1
            if state is State.IN_FLIGHT:
                self._sizes[work.tenant] += work.size
            if state not in NEXT:
                self._open.remove(work)
            self._put(work, state)

    def _put(self, work: Work, state: State) -> None:
        work.state = state
        self._states[work.tenant][state] += 1
        for it in self._watchers:
            it(work)

    def waiting(self, tenant: str) -> int:
        """How many jobs of a tenant wait."""
        return self._states[tenant][State.WAITING]

    def unsettled(self) -> list[Work]:
        """The jobs that wait or are in flight."""
        with self.lock:
            return list(self._open)

    def rows(self) -> list[Row]:
        """The account of each tenant, all of one moment."""
        with self.lock:
            return [Row(it, count, Counter(self._states[it]), self._sizes[it]) for it, count in self._submitted.items()]
