"""The ways of packets that are drawn are those of the answer and the visits."""
import csv
import re
from collections import defaultdict
from pathlib import Path
from unittest.mock import patch

import pytest

pytest.importorskip("matplotlib", reason="python3-matplotlib is missing")

from conftest import SCRIPTS, Example, drawn
from drawing import moments, plot, summary
from drawing.journeys import Journey
from drawing.model import Answer, Packet, Pulled
from drawn import SVG, Chart, words

WITHIN = 0.02


class Told:
    """What the answer says of each packet, by its name: the line at which it was offered, refused, evicted, or came out."""

    def __init__(self, example: Example) -> None:
        self.offered: dict[str, int] = {}
        self.refused: dict[str, int] = {}
        self.evicted: dict[str, int] = {}
        self.linked: dict[str, int] = {}
        self.device: dict[str, str] = {}
        self.last = 0
        for line, text in enumerate(example.file("out").read_text().splitlines(), 1):
            self.last = line if not text.startswith("sender") else self.last
            if it := re.fullmatch(r"(\d+#\d+) \d+ (accepted|refused)(?: evicted (.*))?", text):
                (self.offered if it[2] == "accepted" else self.refused)[it[1]] = line
                if it[3]:
                    self.evicted[it[3]] = line
            elif it := re.fullmatch(r"pull \d+( \d+)?: (\d+#\d+) \d+", text):
                self.linked[it[2]] = line
                self.device[it[2]] = it[1] or " 0"

    def later(self) -> dict[str, int]:
        """How many places later than among the offers each packet came out of its link."""
        found = {}
        for device in set(self.device.values()):
            out = [it for it in self.linked if self.device[it] == device]
            by_offer = sorted(out, key=lambda it: self.offered[it])
            found.update({it: out.index(it) - by_offer.index(it) for it in out})
        return found


def marked(chart: Chart, name: str) -> dict[str, float]:
    """The marks of a kind: of which packet, and where."""
    panel = chart.panel_of(name)
    across, rows = chart.axis(panel, "x"), chart.axis(chart.panels[0], "y")
    across.ticks = Chart.ticks(panel, "x")
    return {rows.name(y).split()[0]: across.value(x) for x, y in chart.marks(name)}


@pytest.mark.parametrize("example", SCRIPTS, ids=str)
def test_marks_are_those_of_the_answer(example: Example) -> None:
    chart, told = Chart(drawn("packets", example.file("out"), example.file("csv"))), Told(example)
    wanted = {"offered": told.offered, "refused": told.refused, "evicted": told.evicted, "linked": told.linked, "later": told.later()}
    left = set(told.offered) - set(told.evicted) - set(told.linked)
    wanted["left"] = {it: told.last + 1 for it in left}
    for name, marks in wanted.items():
        assert marked(chart, name) == pytest.approx(marks, abs=WITHIN), name


@pytest.mark.parametrize("example", SCRIPTS, ids=str)
def test_heads_are_those_of_the_visits(example: Example) -> None:
    chart, told = Chart(drawn("packets", example.file("out"), example.file("csv"))), Told(example)
    begun: dict[str, list[int]] = defaultdict(list)
    with open(example.file("csv"), newline="") as file:
        for row in csv.DictReader(file):
            if row["sender"] and row["fresh"] == "1" and row["passed"] == "0":
                begun[f"{row['sender']}#{row['number']}"].append(int(row["pull"]))
    if not begun:
        assert chart.corners("held") == []
        return
    panel = chart.panel_of("held")
    across, rows = chart.axis(panel, "x"), chart.axis(panel, "y")
    across.ticks = Chart.ticks(panel, "x")
    corners = chart.corners("held")
    bars = [(rows.name(y).split()[0], across.value(x), across.value(end)) for (x, y), (end, _) in zip(corners[::2], corners[1::2])]
    assert sorted(it[0] for it in bars) == sorted(name for name, pulls in begun.items() for _ in pulls)
    for name, start, end in bars:
        assert told.offered[name] < start < end == pytest.approx(told.linked[name], abs=WITHIN)


def test_a_packet_is_held_from_the_pull_that_looked_at_it() -> None:
    chart = Chart(drawn("packets", Example("sharp-bytes").file("out"), Example("sharp-bytes").file("csv")))
    across = chart.axis(chart.panels[0], "x")
    across.ticks = Chart.ticks(chart.panels[0], "x")
    assert [across.value(x) for x, _ in chart.corners("held")] == pytest.approx([3, 4], abs=WITHIN)


def chart_of_lines(lines: list[str], pulls: list[str], folder: Path) -> Chart:
    """The chart of an answer with these lines, and of these rows of a visit file."""
    answer, rows = folder / "answer.out", folder / "visits.csv"
    answer.write_text("".join(f"{it}\n" for it in lines))
    rows.write_text("".join(f"{it}\n" for it in ["pull,node,input,fresh,sender,number,length,passed,moment", *pulls]))
    return Chart(drawn("packets", answer, rows))


def test_names_of_five_digit_senders_are_whole(tmp_path: Path) -> None:
    chart = chart_of_lines([f"10000#{it} 65535 accepted" for it in range(99_995, 100_000)], [], tmp_path)
    names = [it for it in chart.panels[0].iter(f"{SVG}text") if "".join(it.itertext()).startswith("10000#")]
    assert len(names) == 5
    for it in names:
        assert float(it.get("x", "")) - 72 * plot.width_of("".join(it.itertext()), 7) > 0


def test_each_of_some_hundred_packets_has_its_name(tmp_path: Path) -> None:
    lines = [f"{it % 3}#{it // 3} 9 accepted" for it in range(500)]
    written = words(chart_of_lines(lines, [], tmp_path).panels[0])
    assert {it.split()[0] for it in lines} | {"sender 0", "sender 1", "sender 2"} <= {it.split("  ")[0] for it in written}


@pytest.mark.parametrize("example", SCRIPTS, ids=str)
def test_moments_stand_at_the_lines_of_their_pulls(example: Example) -> None:
    chart = Chart(drawn("packets", example.file("out"), example.file("csv")))
    across = chart.axis(chart.panels[0], "x")
    lines = example.file("out").read_text().splitlines()
    found = [it.split("-") for it in chart.parts if it.startswith("moment-")]
    assert {device for _, device, _ in found} == {(it.split(":")[0].split()[2:] or ["0"])[0] for it in lines if it.startswith("pull")}
    for _, device, line in found:
        part = chart.parts[f"moment-{device}-{line}"]
        (moment,) = words(part)
        pulled = lines[int(line) - 1].split(":")[0].split()
        assert pulled[1] == moment.replace(",", "") and (pulled[2:] or ["0"]) == [device]
        place = float(next(part.iter(f"{SVG}text")).get("x", ""))
        assert across.value(place) == pytest.approx(int(line), abs=WITHIN)


def test_moments_are_round_and_apart() -> None:
    assert moments.chosen([(it, 3 * it) for it in range(1000)], 90) == [(it, 3 * it) for it in range(0, 1000, 100)]
    assert moments.chosen([(1, 7), (2, 8), (100, 9), (101, 1)], 50) == [(1, 7), (100, 9)]
    assert moments.chosen([], 50) == []


def test_many_packets_are_told_by_sender(tmp_path: Path) -> None:
    kinds = {7: "accepted", 40_000: "refused"}
    lines = [f"{sender}#{it} 9 {kind}" for it in range(300) for sender, kind in kinds.items()]
    lines += [f"pull {it}: 7#{it} 9" for it in range(100)]
    chart = chart_of_lines(lines, [f"{it},0,0,1,7,{it},9,1,{it}" for it in range(100)], tmp_path)
    told = [words(chart.parts[f"told-{it}"]) for it in kinds]
    assert told == [
        ["sender 7: 300 offered, 100 out of the link, 0 refused, 0 evicted, 200 left; at most 300 waiting"],
        ["sender 40000: 300 offered, 0 out of the link, 300 refused, 0 evicted, 0 left; at most 0 waiting"],
    ]
    assert not {"waits", "linked", "offered"} & set(chart.parts)
    assert any("summary" in it for it in words(chart.root)) and any(it.startswith("moment-0-") for it in chart.parts)
    across = chart.axis(chart.panels[0], "x")
    corners = chart.corners("waiting-7")
    highest = min(y for _, y in corners)
    assert across.value(min(x for x, y in corners if y == highest)) == pytest.approx(599, abs=701 / summary.BINS)


def test_the_most_that_wait_is_exact() -> None:
    ways = [Journey(Packet(1, 0, 9), 1, False, linked=4), Journey(Packet(1, 1, 9), 2, False, evicted=3), Journey(Packet(1, 2, 9), 3, False), Journey(Packet(1, 3, 9), 5, True)]
    assert summary.waiting(ways, 8, 8) == [0, 1, 2, 2, 2, 1, 1, 1]


def test_senders_beyond_the_lanes_are_counted() -> None:
    rows = [(it, [Journey(Packet(it, 0, 9), 1, True)] * (1 + it % 2)) for it in range(2 * summary.MOST_LANES)]
    lanes, rest = summary.lanes(rows)
    assert lanes == rows[1::2] and sorted(rest, key=lambda it: it[0]) == rows[::2]


def test_a_row_of_many_moments_measures_few_texts() -> None:
    answer = Answer(pulls=[Pulled(line, 0, line, None) for line in range(1, 5000)])
    with patch("drawing.plot.width_of", wraps=plot.width_of) as measured:
        moments.draw(plot.figure(10, 5).subplots(), answer, 5000, 7)
    assert measured.call_count < 10
