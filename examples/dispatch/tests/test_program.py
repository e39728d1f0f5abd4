"""The program of the example is run. These tests stand outside what is proved."""
import re
import subprocess
import sys
from pathlib import Path
from urllib.request import urlopen
from xml.etree import ElementTree

from clickpull import Router
from fair import report
from told import counts, words_of
from watched import LONGEST, is_running, started, wait_until

FOLDER = Path(__file__).resolve().parent.parent


def test_it_serves_all_tenants_while_a_worker_is_killed(tmp_path: Path) -> None:
    picture, record = tmp_path / "shares.svg", tmp_path / "run.script"
    words = ["--seconds", "4", "--kill", "--picture", str(picture), "--record", str(record)]
    with started(FOLDER / "dispatch", *words) as (program, printing):
        address = printing.readline().partition(" ")[2].strip()
        assert wait_until(lambda: "<td>physics</td>" in urlopen(address).read().decode(), 10)
        killed = re.fullmatch(r"killed worker (\d+), and started another\n", printing.readline())
        assert killed and not is_running(int(killed[1]))
        printed, _ = program.communicate(timeout=LONGEST)
    assert program.returncode == 0, printed
    head, *rows, sums = printed.splitlines()
    assert words_of(head) == list(report.COLUMNS)
    assert [words_of(it)[0] for it in rows] == ["alerts", "physics", "biology", "guests"]
    for it in rows:
        submitted, waiting, in_flight, done, refused, failed = counts(it)
        assert submitted == done + refused and done > 0 and (waiting, in_flight, failed) == (0, 0, 0)
    assert re.fullmatch(r"[\d,]+ jobs: [\d,]+ done, [\d,]+ refused, 0 failed", sums)
    drawn = ElementTree.parse(picture).getroot()
    assert len(drawn.findall("{*}polyline")) == 6
    assert "a worker is killed" in [it.text for it in drawn.findall("{*}text")]
    emitted = replayed(record.read_text(), (FOLDER / "tenants.click").read_text())
    assert emitted == [counts(it)[3] for it in rows]


def replayed(script: str, tree: str) -> list[int]:
    """How many packets of each sender a router emits that is asked what a record has."""
    *lines, last = script.splitlines()
    assert last == "drain 0"
    with Router(tree) as router:
        for line in lines:
            word, *numbers = line.split()
            router.offer(*map(int, numbers)) if word == "send" else router.pull(*map(int, numbers))
        assert router.left() == 0
        return [it.emitted.packets for it in router.accounts()]


def test_wrong_words_are_refused() -> None:
    words = ["--kill", "--scheduler", "tcp://127.0.0.1:1"]
    done = subprocess.run([sys.executable, FOLDER / "dispatch", *words], capture_output=True, text=True)
    assert done.returncode == 2 and "only a worker that was started is killed" in done.stderr
