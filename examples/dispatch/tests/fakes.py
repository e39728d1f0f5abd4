"""A cluster that does what a test says. It stands outside what is proved."""
import asyncio
from collections.abc import Callable, Generator
from typing import Any


class FakeFuture:
    """What a cluster returns for a job."""

    def __init__(self, call: Callable[..., Any], arguments: tuple[Any, ...], retries: int) -> None:
        self.call, self.arguments, self.retries = call, arguments, retries
        self.released = False
        self._outcome: asyncio.Future[Any] = asyncio.get_running_loop().create_future()

    def __await__(self) -> Generator[Any, None, Any]:
        return self._outcome.__await__()

    async def exception(self) -> BaseException | None:
        await asyncio.wait([self._outcome])
        return self._outcome.exception()

    def release(self) -> None:
        self.released = True

    def finish(self) -> None:
        """Calls what the job calls, as a worker would."""
        try:
            self._outcome.set_result(self.call(*self.arguments))
        except BaseException as error:
            self._outcome.set_exception(error)


class FakeClient:
    """A client whose jobs end when the test says so."""

    def __init__(self) -> None:
        self.status = "running"
        self.given: list[FakeFuture] = []

    def submit(self, call: Callable[..., Any], *arguments: Any, pure: bool, retries: int) -> FakeFuture:
        assert not pure, "two jobs that call the same are two jobs"
        self.given.append(FakeFuture(call, arguments, retries))
        return self.given[-1]

    def in_flight(self) -> list[FakeFuture]:
        """The jobs that it was given and that have no outcome."""
        return [it for it in self.given if not it.released]


async def settle() -> None:
    """Lets all that is ready to run do so."""
    for _ in range(50):
        await asyncio.sleep(0)
