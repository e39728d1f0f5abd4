"""The code that the page shows runs, and what it says that the program prints has the right form. They stand outside what is proved."""
import asyncio
import re
from pathlib import Path
from typing import Any

import pytest

from fair import report
from fair.cluster import Cluster
from told import counts, words_of
from watched import LONGEST

FOLDER = Path(__file__).resolve().parent.parent
README = (FOLDER / "README.md").read_text()


def test_what_is_shown_runs(capsys: pytest.CaptureFixture[str]) -> None:
    names: dict[str, Any] = {}
    code, = re.findall(r"```python\n(.*?)```", README, re.DOTALL)
    exec(code, names)
    tree = (FOLDER / "tenants.click").read_text()
    with Cluster(1) as cluster:
        asyncio.run(asyncio.wait_for(names["main"](cluster.address, tree), LONGEST))
    assert capsys.readouterr().out == "49\n"


def test_what_is_printed_has_this_form() -> None:
    address, killed, head, *rows, sums = re.findall(r"```\n(page: .*?)\n```", README, re.DOTALL)[0].splitlines()
    assert words_of(head) == list(report.COLUMNS)
    assert [words_of(it)[0] for it in rows] == ["alerts", "physics", "biology", "guests"]
    submitted, waiting, in_flight, done, refused, failed = map(sum, zip(*map(counts, rows)))
    assert submitted == done + refused and waiting == in_flight == failed == 0
    assert sums == f"{submitted:,} jobs: {done:,} done, {refused:,} refused, 0 failed"
