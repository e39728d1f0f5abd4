"""The drawing of a tree has the elements, connections and counts of the files."""
import os
import re
import shutil
import subprocess
import xml.etree.ElementTree as ET
from pathlib import Path

import pytest
from conftest import ALL, BARE, PICTURES, Example, drawn
from drawn import SVG, words

pytestmark = pytest.mark.skipif(not shutil.which("dot"), reason="there is no dot on the PATH: graphviz")


def parts(svg: str, kind: str) -> list[ET.Element]:
    """The nodes or edges that graphviz drew."""
    return [it for it in ET.fromstring(svg).iter(f"{SVG}g") if it.get("class") == kind]


def title(element: ET.Element) -> str:
    return element.findtext(f"{SVG}title") or ""


@pytest.mark.parametrize("example", ALL, ids=str)
def test_elements_and_connections_are_drawn(example: Example) -> None:
    svg = drawn("tree", example.file("click"))
    text = example.file("click").read_text()
    declared = {name: element for name, element in re.findall(r"(\w+) :: (.*);", text)}
    assert {title(it): words(it)[1] for it in parts(svg, "node")} == declared
    assert all(words(it)[0] == title(it) for it in parts(svg, "node"))
    connected = re.findall(r"(\w+) \[0\] -> \[(\d+)\] (\w+);", text)
    assert sorted(title(it) for it in parts(svg, "edge")) == sorted(f"{a}->{b}" for a, _, b in connected)
    ports = {title(it): words(it)[0].split("]")[0].lstrip("[") for it in parts(svg, "edge") if words(it)}
    assert all(ports.get(f"{a}->{b}", "0") == port for a, port, b in connected)


@pytest.mark.parametrize("example", ALL, ids=str)
def test_each_scheduler_has_its_arguments_at_its_inputs(example: Example) -> None:
    svg = drawn("tree", example.file("click"))
    text = example.file("click").read_text()
    written = {title(it): words(it) for it in parts(svg, "edge")}
    for name, arguments in re.findall(r"(\w+) :: (?:DRRSched|StrideSched)\((.*)\);", text):
        given = [int(it) for it in arguments.split(", ")]
        for source, port in re.findall(rf"(\w+) \[0\] -> \[(\d+)\] {name};", text):
            own = given[int(port)] if len(given) > 1 else given[0]
            assert re.fullmatch(rf"\[{port}\] {own:,} (bytes?|tickets?)", written[f"{source}->{name}"][0])


@pytest.mark.parametrize("example", ALL, ids=str)
def test_counts_are_those_of_the_report(example: Example) -> None:
    svg = drawn("tree", example.file("click"), example.file("out"))
    text = example.file("click").read_text()
    number = {name: int(it) for name, it in re.findall(r"(\w+) :: Sender\((\d+)\);", text)}
    queues = re.findall(r"(\w+) :: (?:FrontDrop)?Queue", text)
    wanted = {queue: [0, 0, 0] for queue in queues}
    for line in re.findall(r"sender (\d+): .* accepted (\d+) \d+, refused (\d+) \d+, evicted (\d+) ", example.file("out").read_text()):
        sender = next(name for name, it in number.items() if it == int(line[0]))
        queue = re.findall(rf"{sender} \[0\] -> \[0\] (\w+);", text)[0]
        wanted[queue] = [a + int(b) for a, b in zip(wanted[queue], line[1:])]
    shown = {title(it): [int(line.split()[1]) for line in words(it)[-3:]] for it in parts(svg, "node") if title(it) in queues}
    assert shown == wanted


LONG = "a_name_of_an_element_that_is_very_long_indeed_and_goes_on"


def tree_of(text: str, folder: Path) -> str:
    """The drawing of a tree text."""
    path = folder / "tree.click"
    path.write_text(text)
    return drawn("tree", path)


def chain(name: str, line: str) -> str:
    """A tree of one queue, with these names of its queue and its line."""
    return f"s :: Sender(1);\n{name} :: Queue(5);\nd :: ToDevice({line});\ns [0] -> [0] {name};\n{name} [0] -> [0] d;\n"


def test_underscores_stand_clear_of_the_next_line(tmp_path: Path) -> None:
    svg = tree_of(chain("with_underscore", "eth_0"), tmp_path)
    for node, at in (("with_underscore", 0), ("d", 1)):
        (part,) = (it for it in parts(svg, "node") if title(it) == node)
        upper, lower = [float(it.get("y", "")) for it in part.iter(f"{SVG}text")][at : at + 2]
        # The line below is as high as its letters, 8 points, and an underscore goes down by 3.
        assert lower - upper > 8 + 3 + 4


def test_long_names_are_shortened_and_whole_in_titles(tmp_path: Path) -> None:
    svg = tree_of(chain(LONG, LONG + "_line"), tmp_path)
    written = words(ET.fromstring(svg))
    assert "a_name_of_an…and_goes_on" in written and not any(LONG in it for it in written)
    assert f"{LONG}" in [title(it) for it in parts(svg, "node")]
    assert f"d :: ToDevice({LONG}_line)" in [title(it) for it in parts(svg, "node")]
    assert float(re.findall(r'<svg width="(\d+)pt"', svg)[0]) < 700


def large_tree(queues: int) -> str:
    """A tree in which a scheduler has this many queues, each with a sender."""
    lines = [f"s{it} :: Sender({it});\nq{it} :: Queue(5);" for it in range(queues)] + ["turns :: RoundRobinSched;", "d :: ToDevice(eth0);"]
    lines += [f"s{it} [0] -> [0] q{it};\nq{it} [0] -> [{it}] turns;" for it in range(queues)] + ["turns [0] -> [0] d;"]
    return "\n".join(lines) + "\n"


def test_a_large_tree_is_compact_and_whole(tmp_path: Path) -> None:
    report = tmp_path / "report"
    report.write_text("".join(f"sender {it}: sent 9 9, accepted {it} 9, refused 2 9, evicted 1 9, emitted 0 0\n" for it in range(127)))
    path = tmp_path / "tree.click"
    path.write_text(large_tree(127))
    svg = drawn("tree", path, report)
    assert float(re.findall(r'<svg [^>]*height="(\d+)pt"', svg)[0]) * 4 / 3 < 4500
    written = {title(it): words(it) for it in parts(svg, "node")}
    assert len(written) == 256
    assert all(written[f"s{it}"] == [f"s{it}", f"Sender({it})"] and written[f"q{it}"] == [f"q{it}", f"Queue(5), took {it}, refused 2, evicted 1"] for it in range(127))
    ports = {title(it): words(it) for it in parts(svg, "edge")}
    assert all(ports[f"q{it}->turns"] == [f"[{it}]"] for it in range(127))


def draw_stdin(text: bytes, path: str) -> subprocess.CompletedProcess[bytes]:
    """What `draw tree -` does with this on standard input."""
    return subprocess.run([PICTURES / "draw", "tree", "-"], input=text, capture_output=True, env=os.environ | {"PATH": path})


def test_a_tree_on_standard_input_is_drawn() -> None:
    file = Example("fair-shares").file("click")
    done = draw_stdin(file.read_bytes(), BARE)
    assert (done.returncode, done.stderr) == (0, b"")
    one, other = ([(title(it), words(it)) for kind in ("node", "edge") for it in parts(svg, kind)] for svg in (done.stdout.decode(), drawn("tree", file)))
    assert one == other and "The tree on standard input" in words(ET.fromstring(done.stdout))


def test_the_program_brings_standard_input_to_canonical_form(tmp_path: Path) -> None:
    # A stand-in for the program, to which a name in capitals isn't canonical.
    (tmp_path / "clickpull").write_text('#!/bin/sh\n[ "$1" = check ] && tr X x < "$2"\n')
    (tmp_path / "clickpull").chmod(0o755)
    done = draw_stdin(chain("X", "eth0").encode(), f"{tmp_path}:{BARE}")
    assert (done.returncode, done.stderr) == (0, b"")
    assert {title(it) for it in parts(done.stdout.decode(), "node")} == {"s", "x", "d"}


@pytest.mark.parametrize("text, why", [(b"nonsense", b"standard input: line 1"), (b"\xff", b"standard input: it isn't a text"), (b"", b"standard input: there is no ToDevice")])
def test_a_wrong_tree_on_standard_input_is_told(text: bytes, why: bytes) -> None:
    done = draw_stdin(text, BARE)
    assert (done.returncode, done.stdout) == (1, b"") and done.stderr.startswith(b"draw: " + why) and done.stderr.count(b"\n") == 1


def test_closed_streams_are_told() -> None:
    file = Example("fair-shares").file("click")
    for redirected, name in (("- <&-", "input"), (f"{file} >&-", "output")):
        done = subprocess.run(["sh", "-c", f"{PICTURES / 'draw'} tree {redirected}"], capture_output=True, text=True)
        assert (done.returncode, done.stderr) == (1, f"draw: standard {name}: it is closed\n")
