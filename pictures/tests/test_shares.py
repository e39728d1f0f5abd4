"""The shares that are drawn are those of the visits, in bounds that are exact."""
import csv
import re
from itertools import pairwise

import pytest

pytest.importorskip("matplotlib", reason="python3-matplotlib is missing")

from conftest import ALL, Example, drawn
from drawing import laws, plot, reading, shares
from drawn import SVG, Chart, Points, words

# Each scheduler that has shares: its example, its device, and its node.
SHARERS = [("branch-office", 0, 3), ("branch-office", 0, 4), ("fair-shares", 0, 1), ("night-backup", 0, 1), ("shared", 0, 1),
           ("sharp-bytes", 0, 1),            ("sharp-packets", 0, 1), ("two-to-one", 0, 1), ("two-uplinks", 1, 1)]
WITHIN = 0.02


def rows_of(example: Example, device: int, node: int) -> list[dict[str, str]]:
    """The visits of a node, as they stand in the file."""
    with open(example.file("csv"), newline="") as file:
        return [it for it in csv.DictReader(file) if int(it.get("device", 0)) == device and int(it["node"]) == node]


def chart_of(name: str, device: int, node: int) -> tuple[Example, Chart]:
    example = Example(name)
    return example, Chart(drawn("shares", example.file("click"), example.file("csv"), "--device", device, "--node", node))


def at(line: Points, moment: float) -> float:
    """How high a line in steps is at a moment; where it steps there, after the step."""
    return [y for x, y in line if x <= moment + 1e-3][-1]


def test_every_sharer_is_looked_at() -> None:
    found = []
    for example in ALL:
        router = reading.router("", example.file("click").read_text())
        found += [(example.name, it.device, it.number) for nodes in router.devices for it in nodes if it.element.kind in shares.CAPTIONS]
    assert found == SHARERS


@pytest.mark.parametrize("name, device, node", SHARERS)
def test_lines_are_what_passed(name: str, device: int, node: int) -> None:
    example, chart = chart_of(name, device, node)
    rows = rows_of(example, device, node)
    is_stride = "StrideSched" in "".join(chart.root.itertext()).split("node")[0]
    lines = {key: chart.points(key) for key in chart.parts if key.startswith("line-")}
    for key, line in lines.items():
        at_input = key.split("-")[-1]
        for pull in {int(it["pull"]) for it in rows}:
            passed = [it for it in rows if int(it["pull"]) <= pull and it["input"] == at_input and it["passed"] == "1"]
            assert at(line, pull + 1) == pytest.approx(len(passed) if is_stride else sum(int(it["length"]) for it in passed), abs=WITHIN)
        assert all(b[0] >= a[0] - WITHIN and b[1] >= a[1] - WITHIN for a, b in pairwise(line))


def quantum_of(example: Example, at_input: str) -> int:
    """The quantum of an input of the example's one DRRSched."""
    (given,) = re.findall(r"DRRSched\((.*)\);", example.file("click").read_text())
    quanta = [int(it) for it in given.split(", ")]
    return quanta[int(at_input)] if len(quanta) > 1 else quanta[0]


def edges(band: Points) -> tuple[Points, Points]:
    """The upper and the lower edge of a band, each from the left."""
    half = len(band) // 2
    return band[:half], band[half : 2 * half][::-1]


@pytest.mark.parametrize("name, device, node", SHARERS)
def test_lines_stay_in_their_bands(name: str, device: int, node: int) -> None:
    _, chart = chart_of(name, device, node)
    assert not any(it.startswith("outside-") for it in chart.parts)
    bands = [it for it in chart.parts if it.startswith("band-")]
    assert bands
    for key in bands:
        line = chart.points("line-" + key.removeprefix("band-").rsplit("-", 1)[0])
        upper, lower = edges(chart.points(key))
        for (left, most), (_, least) in zip(upper[::2], lower[::2]):
            assert least - WITHIN <= at(line, left) <= most + WITHIN


@pytest.mark.parametrize("name, device, node", SHARERS)
def test_bands_of_bytes_are_as_wide_as_the_law_says(name: str, device: int, node: int) -> None:
    example, chart = chart_of(name, device, node)
    if "DRRSched" not in "".join(chart.root.itertext()):
        return
    for key in (it for it in chart.parts if it.startswith("band-")):
        quantum = quantum_of(example, key.split("-")[3])
        upper, lower = edges(chart.points(key))
        assert all(most - least == pytest.approx(quantum + 65_534, abs=1) for (_, most), (_, least) in zip(upper, lower))


@pytest.mark.parametrize("name, device, node", [it for it in SHARERS if it[0] not in ("sharp-packets", "two-to-one") and it[1:] != (0, 3)])
def test_upper_edges_are_quanta_for_arrivals_since_the_input_was_empty(name: str, device: int, node: int) -> None:
    example, chart = chart_of(name, device, node)
    rows = rows_of(example, device, node)
    bands = {key: edges(chart.points(key))[0] for key in chart.parts if key.startswith("band-")}
    for it, row in enumerate(rows):
        same = [(earlier, rows[place]) for place, earlier in enumerate([None, *rows][: it + 1]) if rows[place]["input"] == row["input"]]
        empty = max((place for place, (_, visit) in enumerate(same) if not visit["sender"]), default=-1)
        passed = sum(int(visit["length"]) for _, visit in same[: empty + 1] if visit["passed"] == "1")
        arrivals = sum(earlier is None or earlier["passed"] == "0" for earlier, _ in same[empty + 1 :])
        turn = [place for place, visit in enumerate(rows) if visit["pull"] == row["pull"]]
        moment = int(row["pull"]) + turn.index(it) / len(turn)
        drawn_there = [edge for key, edge in bands.items() if key.split("-")[3] == row["input"] and edge[0][0] - 1e-3 <= moment < edge[-1][0] - 1e-3]
        assert len(drawn_there) == (1 if row["sender"] else 0)
        if row["sender"]:
            assert at(drawn_there[0], moment) == pytest.approx(passed + quantum_of(example, row["input"]) * arrivals, abs=0.5)


@pytest.mark.parametrize("name", ["sharp-bytes", "sharp-packets", "fair-shares"])
def test_a_narrower_band_is_left(name: str) -> None:
    example = Example(name)
    router = reading.router("", example.file("click").read_text())
    node = router.devices[0][1]
    visits = reading.visits(str(example.file("csv")), router)
    assert not any(it.outside for it in laws.shares(node, visits))
    narrow = laws.shares(node, visits, narrower=1)
    assert any(it.outside for it in narrow)
    left = Chart(shares.draw(router, node, visits, "narrower", narrower=1))
    assert any(it.startswith("outside-") for it in left.parts)
    assert "LEAVES THE BAND" in "".join(left.root.itertext())


@pytest.mark.parametrize("name", ["sharp-bytes", "sharp-packets"])
def test_each_edge_is_reached(name: str) -> None:
    example = Example(name)
    router = reading.router("", example.file("click").read_text())
    found = laws.shares(router.devices[0][1], reading.visits(str(example.file("csv")), router))
    steps = [it for share in found for it in zip(share.got, share.least, share.most) if it[1] is not None]
    assert any(got == least for got, least, _ in steps)
    if name == "sharp-packets":
        assert any(got == most for got, _, most in steps)


def test_a_visit_that_the_law_forbids_leaves_the_band() -> None:
    example = Example("fair-shares")
    router = reading.router("", example.file("click").read_text())
    visits = reading.visits(str(example.file("csv")), router)
    # The first input passes once more than its deficit covers.
    twice = [visits[0], *visits]
    assert any(it.outside for it in laws.shares(router.devices[0][1], twice))


def test_long_names_are_shortened_and_whole_in_titles() -> None:
    example = Example("fair-shares")
    text = example.file("click").read_text()
    plain = reading.router("", text).devices[0][1]
    longer = {name: name * 40 for name in (plain.element.name, *plain.inputs)}
    for name, instead in longer.items():
        text = re.sub(rf"\b{name}\b", instead, text)
    router = reading.router("", text)
    chart = Chart(shares.draw(router, router.devices[0][1], reading.visits(str(example.file("csv"))), f"What each input of {longer[plain.element.name]} got"))
    assert not any(name in written for name in longer.values() for written in words(chart.root))
    assert [chart.parts[f"input-0-1-{it}"].findtext(f"{SVG}title") for it in range(len(plain.inputs))] == [longer[it] for it in plain.inputs]
    assert all(72 * plot.width_of(written, 9) < 9 * 72 * 0.89 for it in range(len(plain.inputs)) for written in words(chart.parts[f"input-0-1-{it}"]))
