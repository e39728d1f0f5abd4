"""The pictures of README are those of the examples."""
import shutil
import xml.etree.ElementTree as ET

import pytest

pytest.importorskip("matplotlib", reason="python3-matplotlib is missing")

from conftest import PICTURES, Example, drawn
from drawn import Chart, words

SHOWN = PICTURES.parent / "docs" / "pictures"
OFFICE, FAIR = Example("branch-office"), Example("fair-shares")


@pytest.mark.skipif(not shutil.which("dot"), reason="there is no dot on the PATH: graphviz")
def test_the_tree() -> None:
    fresh = drawn("tree", OFFICE.file("click"), OFFICE.file("out"))
    assert words(ET.fromstring((SHOWN / "tree.svg").read_text())) == words(ET.fromstring(fresh))


def test_the_shares() -> None:
    fresh = Chart(drawn("shares", FAIR.file("click"), FAIR.file("csv"), "--node", 1))
    shown = Chart((SHOWN / "shares.svg").read_text())
    names = [it for it in fresh.parts if it.startswith(("line-", "band-"))]
    assert names == [it for it in shown.parts if it.startswith(("line-", "band-"))]
    for name in names:
        assert shown.points(name) == [pytest.approx(it, abs=0.05) for it in fresh.points(name)]


def test_the_packets() -> None:
    fresh, shown = Chart(drawn("packets", OFFICE.file("out"), OFFICE.file("csv"))), Chart((SHOWN / "packets.svg").read_text())
    for name in ("offered", "linked", "refused", "evicted", "left"):
        assert len(shown.marks(name)) == len(fresh.marks(name))
    assert words(shown.parts["axes_1"]) == words(fresh.parts["axes_1"])
