"""The page, in Chromium without a window: stepped from its first visit to its last by keys, it shows what the visit file has."""
import csv
import math
import re
import shutil
from collections.abc import Iterator
from dataclasses import dataclass, field
from pathlib import Path
from typing import TypedDict, cast

import pytest

pytest.importorskip("matplotlib", reason="python3-matplotlib is missing")
pytest.importorskip("selenium", reason="python3-selenium is missing")
if not all(map(shutil.which, ("chromium", "chromedriver", "dot"))):
    pytest.skip("chromium, chromium-driver or graphviz is missing", allow_module_level=True)

from conftest import SCRIPTS, Example, drawn
from drawing import page, reading
from drawing.steps import steps
from selenium.common.exceptions import WebDriverException
from selenium.webdriver import Chrome, ChromeOptions
from selenium.webdriver.chrome.service import Service
from selenium.webdriver.common.action_chains import ActionChains
from selenium.webdriver.common.keys import Keys

SHOWN = """
const text = (it) => it.textContent;
return {
  count: text(document.getElementById('count')), words: text(document.getElementById('words')), after: text(document.getElementById('after')),
  queues: [...document.querySelectorAll('#queues tr')].map((row) => [...row.cells].map(text)), heads: [...document.querySelectorAll('#heads li')].map(text),
  lit: [...document.querySelectorAll('#tree .lit')].map((it) => it.id + (it.classList.contains('none') ? ' none' : it.classList.contains('held') ? ' held' : '')),
  line: [...document.querySelectorAll('#script [aria-current]')].map((it) => [...it.parentNode.children].indexOf(it) + it.parentNode.start),
};
"""


class Shown(TypedDict):
    """What is shown, as SHOWN gathers it."""

    count: str
    words: str
    after: str
    queues: list[list[str]]
    heads: list[str]
    lit: list[str]
    line: list[int]


@pytest.fixture(scope="module")
def browser() -> Iterator[Chrome]:
    options = ChromeOptions()
    for word in ("--headless=new", "--no-sandbox", "--disable-dev-shm-usage", "--window-size=1300,1200"):
        options.add_argument(word)
    try:
        chrome = Chrome(options=options, service=Service(shutil.which("chromedriver") or ""))
    except WebDriverException as it:
        pytest.skip(f"chromium does not start: {it.msg}")
    yield chrome
    chrome.quit()


def html_of(example: Example) -> str:
    """The page of an example, made of the files that are kept of it."""
    return html_with(example, {})


def html_with(example: Example, names: dict[str, str]) -> str:
    """The page of an example in which elements have other names."""
    text = example.file("click").read_text()
    for name, instead in names.items():
        text = re.sub(rf"\b{name}\b", instead, text)
    router = reading.router("", text)
    answer = reading.answer(str(example.file("out")))
    return page.page(example.name, router, example.file("script").read_text(), answer, reading.visits(str(example.file("csv")), router))


def open_page(browser: Chrome, folder: Path, html: str) -> None:
    path = folder / "page.html"
    path.write_text(html)
    browser.get(path.as_uri())


def shown_by(browser: Chrome) -> Shown:
    """What the page shows."""
    return cast(Shown, browser.execute_script(SHOWN))


def press(browser: Chrome, key: str) -> Shown:
    """What is shown after a key."""
    ActionChains(browser, duration=0).send_keys(key).perform()
    return shown_by(browser)


@dataclass
class Expected:
    """What should be shown, told anew from the tree, the script, the answer and the visit file."""

    example: Example
    inputs: dict[tuple[int, int, int], str] = field(default_factory=dict)
    queues: dict[str, list[str]] = field(default_factory=dict)
    heads: dict[str, str] = field(default_factory=dict)

    def __post_init__(self) -> None:
        text = self.example.file("click").read_text()
        self.capacity = dict(re.findall(r"(\w+) :: (?:FrontDrop)?Queue\((\d+)\)", text))
        self.queues = {it: [] for it in self.capacity}
        senders = dict(re.findall(r"(\w+) :: Sender\((\d+)\)", text))
        self.wired = re.findall(r"(\w+) \[0\] -> \[(\d+)\] (\w+);", text)
        self.queue_of = {senders[a]: c for a, _, c in self.wired if a in senders}
        self.names: dict[tuple[int, int], str] = {}
        for device, top in enumerate(re.findall(r"(\w+) :: ToDevice", text)):
            self.lay_out(device, top)

    def lay_out(self, device: int, name: str) -> None:
        """Numbers the nodes in preorder."""
        number = sum(it[0] == device for it in self.names)
        self.names[device, number] = name
        for source, port, _ in sorted((it for it in self.wired if it[2] == name), key=lambda it: int(it[1])):
            self.inputs[device, number, int(port)] = source
            if source not in self.queues:
                self.lay_out(device, source)

    def offer(self, line: str) -> None:
        """An offer, by the line that answers it."""
        name, length, *rest = line.split()
        queue = self.queues[self.queue_of[name.split("#")[0]]]
        if "evicted" in rest:
            assert queue.pop(0) == rest[-1]
        if rest[0] == "accepted":
            queue.append(name)

    def visit(self, row: dict[str, str]) -> None:
        """A visit, by its row."""
        place = int(row.get("device", 0)), int(row["node"]), int(row["input"])
        source, name = self.inputs[place], f"{row['sender']}#{row['number']}"
        if source in self.queues and row["fresh"] == "1" and row["sender"]:
            assert self.queues[source].pop(0) == name
        where = f"{self.names[place[:2]]} [{place[2]}]"
        if row["sender"] and row["passed"] == "0":
            self.heads[where] = f"{name} of {row['length']} bytes, held by {where}"
        else:
            self.heads.pop(where, None)

    def words(self, row: dict[str, str]) -> list[str]:
        """What has to be said of a visit."""
        place = int(row.get("device", 0)), int(row["node"]), int(row["input"])
        packet = f"{row['sender']}#{row['number']} of {row['length']} bytes"
        happened = "none" if not row["sender"] else "passed" if row["passed"] == "1" else "held" if row["fresh"] == "1" else "still held"
        begin = f"Pull {row['pull']} of {self.names[place[0], 0]} at moment {row['moment']}: {self.names[place[:2]]} "
        asked = f"asked [{place[2]}] {self.inputs[place]}: " if row["fresh"] == "1" else f"looked at {packet}, held for [{place[2]}] {self.inputs[place]}: "
        got = f"{packet}, " if row["sender"] and row["fresh"] == "1" else ""
        return [begin + asked + got + happened + "."]

    def agrees(self, shown: Shown) -> None:
        """Compares queues and heads."""
        assert shown["queues"] == [[it, f"{len(held)} of {self.capacity[it]}", " ".join(held)] for it, held in self.queues.items()]
        assert sorted(shown["heads"]) == (sorted(self.heads.values()) or ["No head is held."])


@pytest.mark.parametrize("example", SCRIPTS, ids=str)
def test_keys_step_from_the_first_visit_to_the_last(example: Example, browser: Chrome, tmp_path: Path) -> None:
    open_page(browser, tmp_path, html_of(example))
    expected = Expected(example)
    offers = [it for it in example.file("out").read_text().splitlines() if re.match(r"\d+#", it)]
    with open(example.file("csv"), newline="") as file:
        rows = list(csv.DictReader(file))
    seen: list[dict[str, str]] = []
    count = len(offers) + len(rows)
    shown = shown_by(browser)
    assert shown["count"] == f"Step 0 of {count}"
    # Devices take turns in a script, but of each the visits come in the order of the file.
    waiting = {device: [it for it in rows if it.get("device", "0") == device] for device in {it.get("device", "0") for it in rows}}
    script = example.file("script").read_text().splitlines()
    for at in range(1, count + 1):
        shown = press(browser, Keys.ARROW_RIGHT)
        assert shown["count"] == f"Step {at} of {count}"
        (line,) = shown["line"]
        command = script[line - 1].split()
        assert shown["words"].startswith(f"Line {line}: ")
        told = shown["words"].removeprefix(f"Line {line}: ")
        if command[0] == "send":
            answered = offers.pop(0)
            expected.offer(answered)
            assert answered.split()[0] in told and answered.split()[2] in told and shown["lit"] == []
        else:
            device = command[2] if len(command) > 2 else "0" if command[0] == "pull" else min(it for it in waiting if waiting[it])
            row = waiting[device].pop(0)
            seen.append(row)
            expected.visit(row)
            assert [told] == expected.words(row)
            how = "" if row["sender"] and row["passed"] == "1" else " held" if row["sender"] else " none"
            assert shown["lit"] == [f"edge-{device}-{row['node']}-{row['input']}{how}"]
        expected.agrees(shown)
    assert len(seen) == len(rows) and not offers
    assert press(browser, Keys.ARROW_RIGHT) == shown


@pytest.mark.parametrize("example", [Example("branch-office"), Example("two-uplinks")], ids=str)
def test_stepping_back_shows_the_same(example: Example, browser: Chrome, tmp_path: Path) -> None:
    open_page(browser, tmp_path, html_of(example))
    on = [shown_by(browser)]
    count = int(on[0]["count"].split()[-1])
    on += [press(browser, Keys.ARROW_RIGHT) for _ in range(count)]
    back = [press(browser, Keys.ARROW_LEFT) for _ in range(count)]
    assert back[::-1] == on[:-1]
    assert press(browser, Keys.END) == on[-1]
    assert press(browser, Keys.HOME) == on[0]


def test_up_and_down_go_by_pulls_and_sends(browser: Chrome, tmp_path: Path) -> None:
    example = Example("branch-office")
    open_page(browser, tmp_path, html_of(example))
    router = reading.router("", example.file("click").read_text())
    visits = reading.visits(str(example.file("csv")), router)
    found = steps(example.file("script").read_text(), reading.answer(str(example.file("out"))), visits)
    groups = [getattr(it, "pull", None) if hasattr(it, "pull") else -line for line, it in found]
    ends = [at for at in range(1, len(groups) + 1) if at == len(groups) or groups[at] != groups[at - 1]]
    on = [press(browser, Keys.ARROW_DOWN)["count"] for _ in ends]
    assert on == [f"Step {at} of {len(groups)}" for at in ends]
    back = [press(browser, Keys.ARROW_UP)["count"] for _ in ends]
    assert back == [f"Step {at} of {len(groups)}" for at in [0, *ends][-2::-1]]


def test_buttons_are_reached_by_tab_and_do_the_same(browser: Chrome, tmp_path: Path) -> None:
    open_page(browser, tmp_path, html_of(Example("fair-shares")))
    names: list[str] = []
    counts: list[str] = []
    for _ in range(6):
        press(browser, Keys.TAB)
        names.append(browser.execute_script("return document.activeElement.id"))
        counts.append(press(browser, Keys.ENTER)["count"])
    assert names == ["first", "back-pull", "back", "next", "next-pull", "last"]
    assert [it.split()[1] for it in counts] == ["0", "0", "0", "1", "2", counts[0].split()[-1]]
    role, live = browser.execute_script("const it = document.getElementById('told'); return [it.getAttribute('role'), it.getAttribute('aria-live')]")
    assert (role, live) == ("status", "polite")


def contrast(one: str, other: str) -> float:
    """How much two colours differ, as WCAG 2 has it."""
    def luminance(colour: str) -> float:
        parts = [int(it) / 255 for it in re.findall(r"\d+", colour)[:3]]
        linear = [it / 12.92 if it <= 0.03928 else math.pow((it + 0.055) / 1.055, 2.4) for it in parts]
        return sum(share * it for share, it in zip((0.2126, 0.7152, 0.0722), linear))
    low, high = sorted((luminance(one), luminance(other)))
    return (high + 0.05) / (low + 0.05)


@pytest.mark.parametrize("scheme", ["light", "dark"])
def test_all_texts_are_legible(scheme: str, browser: Chrome, tmp_path: Path) -> None:
    open_page(browser, tmp_path, html_of(Example("branch-office")))
    browser.execute_cdp_cmd("Emulation.setEmulatedMedia", {"features": [{"name": "prefers-color-scheme", "value": scheme}]})
    press(browser, Keys.END)
    inks = browser.execute_script("""
        const seen = new Set();
        for (const it of document.querySelectorAll('svg text')) seen.add(getComputedStyle(it).fill);
        for (const it of document.querySelectorAll('h1, h2, p, li, td, th, button')) seen.add(getComputedStyle(it).color);
        return [...seen];
    """)
    papers = browser.execute_script("return [getComputedStyle(document.body).backgroundColor, getComputedStyle(document.getElementById('told')).backgroundColor]")
    assert (contrast(papers[0], "rgb(0, 0, 0)") > 10) == (scheme == "light")
    assert all(contrast(ink, paper) >= 4.5 for ink in inks for paper in papers), (inks, papers)


@pytest.mark.parametrize("scheme", ["light", "dark"])
@pytest.mark.parametrize("name", ["tree", "shares", "packets"])
def test_pictures_alone_are_legible(name: str, scheme: str, browser: Chrome, tmp_path: Path) -> None:
    tree, out, rows = (Example("sharp-bytes").file(it) for it in ("click", "out", "csv"))
    words: dict[str, tuple[str | Path | int, ...]] = {"tree": ("tree", tree, out), "shares": ("shares", tree, rows, "--node", 1), "packets": ("packets", out, rows)}
    (tmp_path / "drawn.svg").write_text(drawn(*words[name]))
    browser.get((tmp_path / "drawn.svg").as_uri())
    browser.execute_cdp_cmd("Emulation.setEmulatedMedia", {"features": [{"name": "prefers-color-scheme", "value": scheme}]})
    paper, *inks = browser.execute_script("""
        const fill = (it) => getComputedStyle(it).fill;
        return [fill(document.querySelector('#patch_1 path, .graph > polygon')), ...new Set([...document.querySelectorAll('text')].map(fill))];
    """)
    assert (contrast(paper, "rgb(0, 0, 0)") > 10) == (scheme == "light")
    assert inks and all(contrast(ink, paper) >= 4.5 for ink in inks), (inks, paper)


@pytest.fixture
def narrow(browser: Chrome) -> Iterator[Chrome]:
    browser.set_window_size(500, 900)
    yield browser
    browser.set_window_size(1300, 1200)


@pytest.mark.parametrize("names", [{}, {"qo": "office" * 15, "shares": "shares" * 15}], ids=["short", "long"])
def test_nothing_is_cut_off_on_a_narrow_screen(names: dict[str, str], narrow: Chrome, tmp_path: Path) -> None:
    open_page(narrow, tmp_path, html_with(Example("branch-office"), names))
    for _ in range(12):
        shown = press(narrow, Keys.ARROW_DOWN)
        wide = narrow.execute_script("return [document.documentElement.scrollWidth, document.documentElement.clientWidth]")
        assert wide[0] <= wide[1], shown["words"]
    titles = narrow.execute_script("return [...document.querySelectorAll('tbody th')].map((it) => [it.title, it.textContent])")
    assert all(title == text for title, text in titles) and set(names.values()) & {it[0] for it in titles} == set(list(names.values())[:1])
    cells = narrow.execute_script("const box = document.querySelector('table').parentNode.getBoundingClientRect(); return [...document.querySelectorAll('td, th')].map((it) => it.getBoundingClientRect().right - box.right)")
    assert max(cells) <= 1


def test_the_head_leaves_room_in_a_narrow_window(narrow: Chrome, tmp_path: Path) -> None:
    open_page(narrow, tmp_path, html_of(Example("branch-office")))
    for key in (Keys.HOME, *[Keys.ARROW_RIGHT] * 20, Keys.END):
        press(narrow, key)
        head, window = narrow.execute_script("return [document.querySelector('header').offsetHeight, innerHeight]")
        assert head <= window / 5, (head, window)
    sizes = narrow.execute_script("return [...document.querySelectorAll('button')].map((it) => [it.textContent.trim().length, it.offsetWidth, it.offsetHeight])")
    assert all(words > 4 and width >= 24 and height >= 24 for words, width, height in sizes)


def test_ten_thousand_visits_are_stepped_through(browser: Chrome, tmp_path: Path) -> None:
    router = reading.router("", Example("voice-over-bulk").file("click").read_text())
    pulls = 5000
    script = "".join(f"send 0 100\npull {it}\n" for it in range(pulls))
    answer = reading.answer_of("", "".join(f"0#{it} 100 accepted\npull {it}: 0#{it} 100\n" for it in range(pulls)))
    rows = "".join(f"{it},1,0,1,0,{it},100,1,{it}\n{it},0,0,1,0,{it},100,1,{it}\n" for it in range(pulls))
    path = tmp_path / "visits.csv"
    path.write_text("pull,node,input,fresh,sender,number,length,passed,moment\n" + rows)
    open_page(browser, tmp_path, page.page("long", router, script, answer, reading.visits(str(path), router)))
    assert press(browser, Keys.END)["count"] == "Step 15000 of 15000"
    assert press(browser, Keys.ARROW_LEFT)["words"] == "Line 10000: Pull 4999 of uplink at moment 4999: first asked [0] calls: 0#4999 of 100 bytes, passed."
    browser.execute_script("for (let it = 0; it < 200; it += 1) document.dispatchEvent(new KeyboardEvent('keydown', { key: 'ArrowLeft' }))")
    assert press(browser, Keys.ARROW_RIGHT)["count"] == "Step 14800 of 15000"
    assert press(browser, Keys.HOME)["count"] == "Step 0 of 15000"
