"""The tests of C and C++, and the examples, over the library for ARM64. qemu runs their programs. It stands outside what is proved."""
import random
import re
from collections.abc import Callable, Iterator
from concurrent.futures import ThreadPoolExecutor
from functools import partial
from pathlib import Path

from making import built
from making.sources import CRATES
from making.targets import ARM64
from of_library import compiled, declared, in_place, lived, lively, replayed, shown, threaded
from of_library.chance import tree_and_script
from of_library.checks import Check, LeftOut, Machine, Setting, compare, need, run
from of_library.linked import make_installed
from of_library.replayed import replayer, same

# What is built is made of these.
SOURCES = ("src/**/*.rt", "specs/**/*.antt")

# Instructions that write what threads share: on x86-64, and on ARM64 with release; and those of ARM64 that read and write it in any order.
X86_64, RELEASES, UNORDERED = (re.compile(rf"\t(?:{it})", re.MULTILINE) for it in (r"xchg\b.*\(|lock\b", r"stlx?r[bh]?\b", r"(?:ld|st)xr[bh]?\b"))

# How many packets each sender on a thread sends in the tests of C++, and how many trees are replayed unless more are asked for.
PACKETS, TREES = "4000", 60


def setting_of(own: Setting, named: Path | None) -> Setting:
    """Where things are for ARM64, with the libraries made; left out where the archive or a tool is missing."""
    need(ARM64.runner[0], ARM64.tool("cc"), ARM64.tool("c++"))
    archive = named or need_built(built.place_of_archive(ARM64))
    if not archive.exists():
        raise LeftOut(f"{archive} is missing")
    setting = Setting(own.root, archive.resolve(), own.made / ARM64.architecture, Machine(ARM64.tool, ARM64.runner))
    setting.made.mkdir()
    make_installed(setting, ARM64)
    return setting


def need_built(path: Path) -> Path:
    """What is built for ARM64 at a path; left out where it isn't there, or is older than the code."""
    builds = "packaging/install --target arm64 builds it"
    if not path.exists():
        raise LeftOut(f"{path.relative_to(CRATES)} is missing ({builds})")
    newest = max((it for crate in CRATES.iterdir() for pattern in SOURCES for it in crate.glob(pattern)), key=lambda it: it.stat().st_mtime)
    if newest.stat().st_mtime > path.stat().st_mtime:
        raise LeftOut(f"{path.relative_to(CRATES)} is older than {newest.relative_to(CRATES)} ({builds})")
    return path


def instructions(setting: Setting, pattern: re.Pattern[str]) -> int:
    """How many such instructions the archive has."""
    return len(pattern.findall(run([setting.tool("objdump"), "-d", "--no-show-raw-insn", setting.archive])))


def stores_are_releases(own: Setting) -> Callable[[Setting], str]:
    """As many instructions write with release what threads share as write it on x86-64, where each write is a release: an emulator on x86-64
    shows no order that is weaker."""

    def check(setting: Setting) -> str:
        wanted = instructions(own, X86_64)
        compare("whether x86-64 has any", wanted > 0, True)
        compare("instructions with release", instructions(setting, RELEASES), wanted)
        compare("instructions without an order", instructions(setting, UNORDERED), 0)
        return f"{wanted} instructions"

    return check


def replays_agree(own: Setting, count: int, seed: int) -> Callable[[Setting], str]:
    """Scripts by chance print on ARM64 what they print on this machine, and so do their records."""

    def check(setting: Setting) -> str:
        programs, folder = [it.command(replayer(it)) for it in (own, setting)], setting.made / "chance"
        folder.mkdir()
        with ThreadPoolExecutor() as pool:
            lines = sum(pool.map(partial(replays_once, programs, folder, seed), range(count)))
        return f"{count} trees and scripts, {lines} lines of answers"

    return check


def replays_once(programs: list[list[str | Path]], folder: Path, seed: int, number: int) -> int:
    """Compares what two programs print of a script. Returns how many lines that has."""
    tree, script = (folder / f"{number}.{it}" for it in ("click", "script"))
    for path, text in zip((tree, script), tree_and_script(random.Random(f"{seed} {number}")), strict=True):
        path.write_text(text)
    records = [folder / f"{number}.{it}" for it in ("own", "arm64")]
    printed = [run([*program, tree, script, record]) for program, record in zip(programs, records, strict=True)]
    same(tree, printed[1], printed[0])
    same(script, *(it.read_text() for it in reversed(records)))
    return printed[0].count("\n")


def portable(own: Setting, count: int, seed: int) -> Iterator[Check]:
    """The checks that need no other tool than a compiler."""
    yield Check("the exports", declared.names_are_exported)
    yield Check("writes that threads see", stores_are_releases(own))
    yield from (Check(it.name.removesuffix(" for ARM64"), it.run) for it in in_place.CHECKS)
    yield Check("the calls, by gcc", compiled.in_c("gcc"))
    yield Check("the calls, over the shared library", compiled.over_the_shared_library)
    yield Check("the table of cases, in C", compiled.cases_in_c)
    yield Check("C++17, by g++", compiled.in_cpp("g++", "C++17", PACKETS))
    yield Check("memory that is refused", compiled.memory_is_refused)
    yield Check("the example of threads", threaded.example)
    yield Check("no wake-up is lost", threaded.no_wake_up_is_lost)
    yield Check("many packets on threads", threaded.at_length("gcc"))
    yield from (it for it in shown.CHECKS if it.name.startswith("C"))
    yield Check("threads in docs/LIBRARY.md", shown.threads_are_right)
    yield Check("records in docs/LIBRARY.md", shown.records_are_right)
    yield Check("the examples, through C", replayed.by_c)
    yield Check("live routers on threads, judged", lived.are_judged)
    yield from lively.checks(count, seed)
    yield Check("replays that chance brings", replays_agree(own, max(count, TREES), seed))


def checks(own: Setting, setting: Setting, count: int, seed: int) -> list[Check]:
    """The checks over the library for ARM64."""
    return [Check(f"ARM64: {it.name}", partial(on, setting, it)) for it in portable(own, count, seed)]


def on(setting: Setting, check: Check, _: Setting) -> str:
    """Makes a check on ARM64."""
    return check.run(setting)
