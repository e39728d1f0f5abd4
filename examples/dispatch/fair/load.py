"""What the tenants of the example submit. It stands outside what is proved."""
import random
import time
from collections import deque
from concurrent.futures import Future, ThreadPoolExecutor, wait
from dataclasses import dataclass

from fair.front import Front, Refused
from fair.tenants import Tenant

# What a size counts: a job of size 1,000,000 takes a second.
SECOND = 1_000_000


@dataclass(frozen=True)
class Habit:
    """How a tenant submits jobs, in seconds since the start: from when to when, of which sizes, and with which pause after each."""

    begin: float
    end: float
    sizes: tuple[int, int]
    pause: float = 0


def habits(tenants: list[Tenant], seconds: float) -> dict[str, Habit]:
    """Returns a habit for each tenant.

    Those that share by size keep their queues full, with jobs of different sizes. The last of them comes late and leaves early. Tenants
    without a share submit a short job now and then.
    """
    sharing = [it for it in tenants if it.scheduler]
    found = {it.name: Habit(0, seconds, (1000, 5000), pause=0.2) for it in tenants}
    for place, it in enumerate(sharing):
        longest = (60_000, 15_000, 30_000)[place % 3]
        is_last = it is sharing[-1]
        found[it.name] = Habit(seconds / 3 if is_last else 0, seconds * 2 / 3 if is_last else seconds, (longest // 3, longest))
    return found


def run(front: Front, seconds: float) -> None:
    """Submits jobs of all tenants, each in a thread, for so many seconds. Then closes the front."""
    start = time.monotonic()
    try:
        with ThreadPoolExecutor(len(front.tenants)) as pool:
            done = [pool.submit(_submit_all, front, it, habit, start) for it, habit in habits(front.tenants, seconds).items()]
        for it in done:
            it.result()
    finally:
        front.close()


def _submit_all(front: Front, tenant: str, habit: Habit, start: float) -> None:
    """Submits the jobs of a tenant. When one is refused, it waits until half of its jobs are settled."""
    chance = random.Random(tenant)
    pending: deque[Future[None]] = deque()
    _sleep_until(start + habit.begin)
    while time.monotonic() < start + habit.end and not front.closed:
        size = chance.randint(*habit.sizes)
        try:
            # Each cluster knows this function, and a job that sleeps leaves the processors to others.
            pending.append(front.submit(tenant, time.sleep, size / SECOND, size=size))
        except Refused:
            wait([pending.popleft() for _ in range(len(pending) // 2)])
        time.sleep(habit.pause)


def _sleep_until(moment: float) -> None:
    time.sleep(max(0, moment - time.monotonic()))
