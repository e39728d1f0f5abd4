"""A fair dispatcher in front of a Dask cluster. It stands outside what is proved."""
import asyncio
from collections.abc import Callable
from concurrent.futures import Future
from functools import partial
from typing import Any, TypeVar

from clickpull import Dispatcher, Record, Shut, UnknownSender
from distributed import Client

from fair.account import Account, State, Work
from fair.tenants import tenants_of

T = TypeVar("T")

# How often a lane looks whether a client that lost the scheduler has found it again, in seconds.
LOOK = 0.1


class Refused(Exception):
    """A job was never handed to the cluster. The text says why."""


class Stopped(Exception):
    """The front stopped before the cluster had settled its jobs."""


# What submits a job to the cluster.
Submit = Callable[[], Any]


# At each call of `submit`, Dask reads the source of the function that called it, which takes time by the length of that. So it is short.
def _called(submit: Submit) -> Any:
    return submit()


class Front:
    """Takes jobs of tenants, and hands them to a cluster in the order in which a tree pulls them, at most so many at a time.

    Any thread may submit jobs. `run` hands them over, in the event loop of the client. A job whose worker died stays in flight: Dask runs
    it again, up to its own limits (`allowed-failures`). So a job may run more than once, and has one outcome.
    """

    # There are as many lanes as jobs may be in flight. A lane takes the next job only once its job before has its outcome. So the tree
    # chooses as late as it can, and no more jobs are in flight than there are lanes.

    def __init__(self, client: Client, tree: str, in_flight: int, *, tick: float = 0.001, record: Record | None = None) -> None:
        """Opens a front with a client that is asynchronous.

        Raises `TextFault` if the text makes no router, and `ValueError` if it has several devices, if two tenants share a queue, or if
        `in_flight` or the tick is too small.
        """
        if in_flight < 1:
            raise ValueError(f"there is at least one job in flight, and not {in_flight}")
        self._dispatcher = Dispatcher[Work](tree, tick=tick, record=record)
        if self._dispatcher.router.devices > 1:
            raise ValueError("a front has one cluster, so that its tree has one ToDevice")
        self.tenants = tenants_of(tree)
        self.account = Account(it.name for it in self.tenants)
        self._numbers = {it.name: it.number for it in self.tenants}
        queues = self._dispatcher.router.queues()
        self._capacities = {it.sender: queues[it.queue].capacity for it in self._dispatcher.router.accounts()}
        self._client = client
        self._in_flight = in_flight

    # Submit and close.

    def submit(self, tenant: str, call: Callable[..., T], *arguments: Any, size: int, retries: int = 0) -> "Future[T]":
        """Submits a job of a tenant: a call for the cluster, and its size, 1 to 65,535. Never waits.

        Returns the future of its result. Raises `Refused` if the queue of the tenant is full or the front is closed. If a FrontDropQueue
        evicts the job for a later one, its future raises `Refused`. Raises `UnknownSender` and `BadLength`; then nothing was submitted.
        """
        if tenant not in self._numbers:
            raise UnknownSender(f"there is no tenant {tenant}")
        work = Work(tenant, size, call, arguments, retries)
        # The cluster may have the job at once, so that it can't be withdrawn.
        work.outcome.set_running_or_notify_cancel()
        with self.account.lock:
            refused = self._offer(work)
        for it, reason in refused.items():
            it.outcome.set_exception(Refused(reason))
        if work in refused:
            raise Refused(refused[work])
        return work.outcome

    def _offer(self, work: Work) -> dict[Work, str]:
        """Offers a job to its queue, and enters it into the account in the same step. Returns which jobs were refused, and why."""
        number = self._numbers[work.tenant]
        refused: dict[Work, str] = {}
        try:
            it = self._dispatcher.submit(number, work, work.size)
        except Shut:
            refused[work] = "the front is closed"
        else:
            if not it.accepted:
                refused[work] = f"the queue of {work.tenant} is full: it has {self._capacities[number]} jobs"
            elif it.evicted:
                refused[it.evicted.value] = f"the queue of {work.tenant} was full, and evicted it for a later job"
        self.account.enter(work)
        for each in refused:
            self.account.move(each, State.REFUSED)
        return refused

    def close(self) -> None:
        """Ends submitting. Jobs that wait are still handed over."""
        self._dispatcher.close()

    @property
    def closed(self) -> bool:
        """Whether it is closed. Jobs may be left inside."""
        return self._dispatcher.closed

    # Hand over.

    async def run(self) -> None:
        """Hands jobs over until the front is closed and each job has its outcome.

        If the scheduler is lost, Dask cancels jobs in flight, which fail. The others wait until the client has found the scheduler again.
        If the client gives up, this raises `Stopped`. Then, and if this is cancelled, the front is closed, jobs in flight fail, and jobs
        that wait are refused.
        """
        lanes = [asyncio.create_task(self._lane()) for _ in range(self._in_flight)]
        try:
            await asyncio.gather(*lanes)
        finally:
            self.close()
            for it in lanes:
                it.cancel()
            await asyncio.gather(*lanes, return_exceptions=True)
            self._give_up()

    async def _lane(self) -> None:
        """Hands over one job at a time."""
        async for job in self._dispatcher:
            await self._hand_over(job.value)
            while self._client.status == "connecting":
                await asyncio.sleep(LOOK)
            self._need_cluster()

    def _need_cluster(self) -> None:
        """Raises `Stopped` if the client has given up on the cluster. It never settles a job that it is given then."""
        if self._client.status in ("closing", "closed"):
            raise Stopped("the connection to the cluster is lost")

    async def _hand_over(self, work: Work) -> None:
        """Hands a job to the cluster, and waits for its outcome."""
        self.account.move(work, State.IN_FLIGHT)
        error, result = await self._outcome(work)
        if error is None:
            self.account.move(work, State.DONE)
            work.outcome.set_result(result)
        else:
            self.account.move(work, State.FAILED)
            work.outcome.set_exception(error)

    async def _outcome(self, work: Work) -> tuple[BaseException | None, Any]:
        """Has the cluster do a job, and returns what it raised or else its result."""
        try:
            self._need_cluster()
            future = _called(partial(self._client.submit, work.call, *work.arguments, pure=False, retries=work.retries))
            try:
                # Waiting for the result raises what the job raised. If that is a CancelledError, it would end the lane.
                error = await future.exception()
                return error, None if error else await future
            finally:
                future.release()
        except Exception as error:
            return error, None

    def _give_up(self) -> None:
        """Settles the jobs that are left after a run that ended early."""
        for work in self.account.unsettled():
            waits = work.state is State.WAITING
            self.account.move(work, State.REFUSED if waits else State.FAILED)
            work.outcome.set_exception(Refused("the front has stopped") if waits else Stopped("the front has stopped"))
