"""Ends the tests if one hangs, as a cluster may. It stands outside what is proved."""
import faulthandler
import sys
from collections.abc import Iterator

import pytest

from watched import LONGEST


@pytest.fixture(autouse=True, scope="module")
def ends() -> Iterator[None]:
    """Ends the process if the tests of a file take too long, and tells where it is, unless pytest captures standard error itself."""
    faulthandler.dump_traceback_later(3 * LONGEST, exit=True, file=sys.__stderr__)
    yield
    faulthandler.cancel_dump_traceback_later()
