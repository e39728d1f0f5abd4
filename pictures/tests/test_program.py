"""With the program: what is kept of it is what it writes, and the commands that need it do."""
import os
import re
import shutil
import subprocess
from pathlib import Path

import pytest
from conftest import ALL, EXAMPLES, KEPT, SCRIPTS, Example, draw

pytestmark = pytest.mark.skipif(not shutil.which("clickpull"), reason="there is no clickpull on the PATH")
PATH = os.environ["PATH"]


def clickpull(*words: object) -> str:
    """What the program writes."""
    return subprocess.run(["clickpull", *map(str, words)], capture_output=True, text=True, check=True).stdout


def source(example: Example, kind: str) -> Path:
    """A file of an example as its author wrote it."""
    path = EXAMPLES / f"{example.name}.{kind}"
    return path if path.exists() else KEPT / f"{example.name}.{kind}"


@pytest.mark.parametrize("example", ALL, ids=str)
def test_kept_trees_are_those_of_the_program(example: Example) -> None:
    assert clickpull("check", source(example, "click")) == example.file("click").read_text()


@pytest.mark.parametrize("example", SCRIPTS, ids=str)
def test_kept_answers_and_visits_are_those_of_the_program(example: Example, tmp_path: Path) -> None:
    rows = tmp_path / "visits.csv"
    assert clickpull("script", source(example, "click"), source(example, "script"), "--visits", rows) == example.file("out").read_text()
    assert rows.read_text() == example.file("csv").read_text()


@pytest.mark.parametrize("example", ALL, ids=str)
def test_a_tree_as_its_author_wrote_it_is_drawn_like_its_canonical_text(example: Example) -> None:
    if not shutil.which("dot"):
        pytest.skip("graphviz is missing")
    one, other = draw("tree", source(example, "click"), path=PATH), draw("tree", example.file("click"))
    assert (one.status, one.err, one.out) == (0, "", other.out)


def test_a_fault_of_the_program_is_told(tmp_path: Path) -> None:
    tree, script = tmp_path / "wrong.click", tmp_path / "wrong.script"
    tree.write_text("x :: Nothing;")
    done = draw("tree", tree, path=PATH)
    assert (done.status, done.out, done.err) == (1, "", f"draw: {tree}: fault 3: UnknownClass 5\n")
    script.write_text("pull\n")
    good = source(Example("fair-shares"), "click")
    done = draw("page", good, script, path=PATH)
    assert (done.status, done.out) == (1, "")
    assert done.err == f"draw: {script}: fault 16: BadScript 1\n"
    done = draw("page", good, tmp_path / "missing", path=PATH)
    assert (done.status, done.err) == (1, f"draw: {tmp_path / 'missing'}: No such file or directory\n")


@pytest.mark.parametrize("example", SCRIPTS, ids=str)
def test_a_page_needs_no_other_file(example: Example) -> None:
    pytest.importorskip("matplotlib", reason="python3-matplotlib is missing")
    done = draw("page", source(example, "click"), source(example, "script"), path=PATH)
    assert (done.status, done.err) == (0, "")
    assert done.out.startswith("<!doctype html>") and done.out.endswith("</html>\n")
    assert not re.search(r"""(?:src|href)=["'](?!data:|#)""", done.out)
    assert set(re.findall(r"https?://[^\s\"'<>)]+", done.out)) <= {"http://www.w3.org/2000/svg", "http://www.w3.org/1999/xlink"}


def test_a_recorded_run_is_drawn(tmp_path: Path) -> None:
    pytest.importorskip("matplotlib", reason="python3-matplotlib is missing")
    tree, trace = EXAMPLES / "night-backup.click", EXAMPLES / "night-backup.trace"
    record, visits, again, answer = (tmp_path / it for it in ("run.script", "run.csv", "again.csv", "run.out"))
    report = clickpull("live", tree, trace, "--limit", 20, "--record", record, "--visits", visits)
    answer.write_text(clickpull("script", tree, record, "--visits", again))
    assert answer.read_text().endswith(report) and again.read_text() == visits.read_text()
    page = draw("page", tree, record, path=PATH)
    assert (page.status, page.err) == (0, "") and page.out.startswith("<!doctype html>")
    packets = draw("packets", answer, visits)
    assert (packets.status, packets.err) == (0, "") and "<svg" in packets.out
    drawn = draw("tree", tree, answer, path=PATH)
    assert (drawn.status, drawn.err) == (0, "")
