"""What takes long is told on standard error: on a terminal at once, and elsewhere after some seconds."""
import sys
import time
from collections.abc import Iterable, Iterator
from typing import TypeVar

T = TypeVar("T")

PATIENCE = 5.0
BEGUN = time.monotonic()
ROWS_A_TIME = 100_000


def tell(words: str) -> None:
    """Says what is being done, where somebody may be waiting."""
    if sys.stderr.isatty() or time.monotonic() - BEGUN > PATIENCE:
        print(f"draw: {words}", file=sys.stderr, flush=True)


def counted(rows: Iterable[T], words: str) -> Iterator[T]:
    """The rows, of which it is told now and then how many there were."""
    for count, row in enumerate(rows, 1):
        if count % ROWS_A_TIME == 0:
            tell(f"{words}: {count:,}")
        yield row
