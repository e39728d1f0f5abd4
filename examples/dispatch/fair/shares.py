"""What tenants got, beside their shares. It stands outside what is proved."""
from dataclasses import dataclass

from fair.account import Account, State, Work
from fair.tenants import Tenant

# How many points a course keeps at most.
MOST_POINTS = 600


@dataclass(frozen=True, slots=True)
class Point:
    """A moment: how much a scheduler had handed over in all, and each tenant's part of it, beside the tenant's share."""

    total: int
    got: tuple[int, ...]
    share: tuple[float, ...]


class Shares:
    """The sizes that the tenants of one DRRSched got, beside their shares.

    Of each job that is handed over, every tenant that has a job then is due a share of the size, by weights. This is what an ideal
    scheduler would give, which hands over jobs bit by bit. A DRRSched hands over whole jobs, turn by turn.
    """

    def __init__(self, account: Account, tenants: list[Tenant]) -> None:
        """Watches the jobs of these tenants, which all have the same scheduler."""
        self.tenants = tenants
        self.marks: list[tuple[int, str]] = []
        """What happened, and how much had been handed over then."""
        self._account = account
        self._places = {it.name: place for place, it in enumerate(tenants)}
        self._got = [0] * len(tenants)
        self._share = [0.0] * len(tenants)
        self._course: list[Point] = [self._point()]
        self._jobs, self._step = 0, 1
        account.watch(self._see)

    def mark(self, text: str) -> None:
        """Marks this moment in the course."""
        with self._account.lock:
            self.marks.append((sum(self._got), text))

    def course(self) -> list[Point]:
        """The course so far. It ends with how things stand."""
        with self._account.lock:
            return [*self._course, self._point()]

    def _see(self, work: Work) -> None:
        """Counts a job that was handed over. The caller holds the account's lock."""
        if work.state is not State.IN_FLIGHT or work.tenant not in self._places:
            return
        backlogged = [place for it, place in self._places.items() if it == work.tenant or self._account.waiting(it)]
        weights = sum(self.tenants[place].weight for place in backlogged)
        for place in backlogged:
            self._share[place] += work.size * self.tenants[place].weight / weights
        self._got[self._places[work.tenant]] += work.size
        self._keep()

    def _keep(self) -> None:
        """Keeps a point of the course now and then, so that it doesn't grow without end."""
        self._jobs += 1
        if self._jobs % self._step == 0:
            self._course.append(self._point())
        if len(self._course) > MOST_POINTS:
            self._course, self._step = self._course[::2], self._step * 2

    def _point(self) -> Point:
        return Point(sum(self._got), tuple(self._got), tuple(self._share))


def all_shares(account: Account, tenants: list[Tenant]) -> list[Shares]:
    """The shares of each DRRSched that tenants have above their queues, in the order in which it is first met."""
    schedulers = dict.fromkeys(it.scheduler for it in tenants if it.scheduler)
    return [Shares(account, [it for it in tenants if it.scheduler == name]) for name in schedulers]
