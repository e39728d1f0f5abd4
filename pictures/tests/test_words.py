"""Wrong words, and wrong and missing files: the status, and the line that says which and why."""
import os
import shutil
import signal
import subprocess
import sys
from pathlib import Path
from unittest.mock import patch

import pytest
from conftest import PICTURES, Example, draw

FAIR = Example("fair-shares")
TREE, VISITS = FAIR.file("click"), FAIR.file("csv")


Words = list[str | Path | int]


def says(words: Words, status: int, *parts: str) -> None:
    """Wants this status, nothing on standard output, and one line on standard error that has these parts."""
    done = draw(*words)
    assert (done.status, done.out) == (status, "")
    (line,) = done.err.splitlines()
    assert line.startswith("draw: ") and all(it in line for it in parts), line


@pytest.mark.parametrize("words", [["tree"], ["circle", "x"], [], ["shares", TREE, VISITS], ["shares", TREE, VISITS, "--node", "x"], ["page", TREE]], ids=str)
def test_wrong_words_are_status_2(words: Words) -> None:
    done = draw(*words)
    assert done.status == 2 and done.out == "" and "draw" in done.err


def test_a_missing_file_is_named(tmp_path: Path) -> None:
    missing = tmp_path / "missing"
    says(["tree", missing], 1, str(missing), "No such file")
    says(["tree", TREE, missing], 1, str(missing), "No such file")
    says(["shares", TREE, missing, "--node", 1], 1, str(missing), "No such file")
    says(["packets", missing, VISITS], 1, str(missing), "No such file")
    says(["tree", tmp_path], 1, str(tmp_path), "directory")


@pytest.mark.parametrize("text, why", [
    ("x :: Queue(1);\nnonsense\n", "line 2"), ("", "no ToDevice"), ("x :: DRRSched(1);\nd :: ToDevice(l);\n", "no tree"),
    ("x :: PrioSched;\nd :: ToDevice(l);\nx [0] -> [0] x;\nx [0] -> [0] d;\n", "no tree"), ("x :: Other(1);\n", "line 1"),
    ("x :: Queue(1);\nx [0] -> [0] y;\n", "line 2"), ("x :: Queue(a);\n", "line 1"), ("d :: ToDevice(l);\n", "no tree"),
    ("q :: Queue(1);\nx :: StrideSched(1, 2);\nd :: ToDevice(l);\nq [0] -> [0] x;\nx [0] -> [0] d;\n", "no tree"), ("x :: StrideSched(0);\n", "line 1"),
    ("s :: Sender(1);\nq :: Queue(1);\nd :: ToDevice(l);\nq [0] -> [0] d;\n", "each Sender"), ("x :: Shaper(1);\n", "line 1"),
])
def test_a_wrong_tree_is_told(text: str, why: str, tmp_path: Path) -> None:
    path = tmp_path / "wrong.click"
    path.write_text(text)
    says(["tree", path], 1, str(path), why)


@pytest.mark.parametrize("change, why", [
    (("pull,node", "pool,node"), "first line"), (("0,1,0,1", "0,1,zero,1"), "line 2 is no visit"), (("0,1,0,1", "0,9,0,1"), "line 2"),
    (("0,1,0,1", "0,1,7,1"), "line 2"), (("0,1,0,1", "0,1,0"), "line 2 is no visit"), (("0,1,0,1", "-1,1,0,1"), "line 2 is no visit"),
])
def test_a_wrong_visit_file_is_told(change: tuple[str, str], why: str, tmp_path: Path) -> None:
    path = tmp_path / "wrong.csv"
    path.write_text(VISITS.read_text().replace(*change, 1))
    says(["shares", TREE, path, "--node", 1], 1, str(path), why)


def test_what_is_no_text_is_told(tmp_path: Path) -> None:
    path = tmp_path / "bytes"
    path.write_bytes(b"\xff\xfe\x00")
    says(["tree", path], 1, str(path), "isn't a text")
    says(["packets", path, VISITS], 1, str(path), "isn't a text")


@pytest.mark.parametrize("old, new, why", [
    ("1,0,0,1,0,0,65535,1,2\n", "", "the answer has more pulls"), ("1,0,0,1,0,0,65535,1,2\n", "1,0,0,1,0,0,65535,1,2\n2,1,0,1,,,,0,3\n", "pull 2 has no visit of the link"), ("0,1,0,1,0,0,65535,0,1\n", "", "0#0 is looked at as a head"),
    ("0,1,0,1,0,0,65535", "0,1,0,1,0,9,65535", "packet 0#9"), ("1,0,0,1,0,0", "1,0,0,1,1,0", "pull 1 gave 1#0"),
])
def test_visits_that_do_not_fit_the_answer_are_told(old: str, new: str, why: str, tmp_path: Path) -> None:
    sharp, path = Example("sharp-bytes"), tmp_path / "wrong.csv"
    path.write_text(sharp.file("csv").read_text().replace(old, new))
    says(["packets", sharp.file("out"), path], 1, str(path), why)


def test_files_that_do_not_belong_together_are_told() -> None:
    other = Example("two-to-one")
    says(["packets", FAIR.file("out"), other.file("csv")], 1, str(other.file("csv")))
    says(["tree", TREE, other.file("out")], 1, str(other.file("out")), "other senders")
    says(["tree", TREE, TREE], 1, str(TREE), "line 1")
    night = Example("night-backup")
    says(["packets", night.file("out"), night.file("csv")], 1, str(night.file("out")), "no packets")


def test_a_node_without_shares_is_told() -> None:
    voice = Example("voice-over-bulk")
    says(["shares", voice.file("click"), voice.file("csv"), "--node", 1], 2, "first", "PrioSched", "DRRSched or a StrideSched")
    says(["shares", TREE, VISITS, "--node", 0], 2, "link", "ToDevice")
    says(["shares", TREE, VISITS, "--node", 2], 2, "no node 2")
    says(["shares", TREE, VISITS, "--node", 1, "--device", 1], 2, "no device 1")


def test_without_the_program_a_page_cannot_be_made() -> None:
    pytest.importorskip("matplotlib", reason="python3-matplotlib is missing")
    says(["page", TREE, FAIR.file("script")], 1, "no clickpull on the PATH")


def test_a_missing_package_is_named(tmp_path: Path) -> None:
    with patch.dict(sys.modules, {"matplotlib": None}):
        for name in ("drawing.plot", "drawing.shares"):
            sys.modules.pop(name, None)
        says(["shares", TREE, VISITS, "--node", "01"], 1, "Python's matplotlib is missing: it is in Debian's package python3-matplotlib")
    done = draw("tree", TREE, path=str(tmp_path))
    assert (done.status, done.err) == (1, "draw: there is no dot on the PATH: it is in Debian's package graphviz\n")


def called(*words: str | Path | int) -> subprocess.CompletedProcess[str]:
    """What the command itself does, in a process of its own."""
    return subprocess.run([PICTURES / "draw", *map(str, words)], capture_output=True, text=True)


def test_the_command_itself() -> None:
    pytest.importorskip("matplotlib", reason="python3-matplotlib is missing")
    assert called("shares", TREE, VISITS, "--node", 1).stdout == draw("shares", TREE, VISITS, "--node", 1).out
    assert called("tree", "missing").returncode == 1
    assert called("tree").returncode == 2


def test_nobody_reads_to_the_end() -> None:
    words = f"{PICTURES / 'draw'} tree {TREE} | head -c 10 > /dev/null"
    assert "Traceback" not in subprocess.run(["bash", "-c", words], capture_output=True, text=True).stderr


@pytest.mark.skipif(not Path("/dev/full").exists(), reason="there is no /dev/full")
def test_a_full_disk_is_told_in_one_line() -> None:
    if not shutil.which("dot"):
        pytest.skip("graphviz is missing")
    with open("/dev/full", "w") as full:
        done = subprocess.run([PICTURES / "draw", "tree", TREE], stdout=full, stderr=subprocess.PIPE, text=True)
    assert (done.returncode, done.stderr) == (1, "draw: standard output: No space left on device\n")


def heed_interrupts() -> None:
    """Undoes what a shell does to a command in the background: SIGINT is ignored there, and by all that it starts."""
    signal.signal(signal.SIGINT, signal.SIG_DFL)


def test_control_c_ends_it_with_one_line(tmp_path: Path) -> None:
    pipe = tmp_path / "pipe"
    os.mkfifo(pipe)
    words: list[str | Path] = [PICTURES / "draw", "tree", pipe]
    running = subprocess.Popen(words, stdout=subprocess.PIPE, stderr=subprocess.PIPE, text=True, preexec_fn=heed_interrupts)
    # Opening waits until the command reads.
    with open(pipe, "w"):
        running.send_signal(signal.SIGINT)
        out, err = running.communicate(timeout=60)
    assert (running.returncode, out, err) == (130, "", "draw: interrupted\n")
