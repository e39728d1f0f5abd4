"""Tests the manual pages, and what CMake reads, over a program and an archive that stand in. This is Python and no part of what is proved."""
import os
import re
import subprocess
from collections.abc import Callable, Sequence
from pathlib import Path

from making.library import VERSION, Unmade, run, version_numbers
from making.sources import NAME, ROOT
from of_library.checks import Setting
from of_library.declared import checked_calls
from testing import standin
from testing.checks import compare, need

# A project that builds programs over the library, each once over the shared library and once over the archive.
PROJECT = """cmake_minimum_required(VERSION 3.18)
project(calls {languages})
find_package(clickpull {version} REQUIRED)
"""
TARGET = """add_executable({name} {source})
target_link_libraries({name} PRIVATE clickpull::{target})
"""


def shown(page: Path, width: int = 120) -> str:
    """A page as man shows it, which must not warn."""
    need("man")
    environment = {**os.environ, "MANWIDTH": str(width), "LC_ALL": "C.UTF-8", "MANROFFOPT": ""}
    done = subprocess.run(["man", "--warnings", "-l", str(page)], capture_output=True, text=True, env=environment)
    compare(f"warnings of {page.name}", done.stderr, "")
    return done.stdout


def has_all(page: str, text: str, wanted: Sequence[str]) -> None:
    """Fails where a page lacks one of these, whatever blanks stand between words."""
    flat = " ".join(text.replace("\u2010\n", "").split())
    for it in wanted:
        if " ".join(it.split()) not in flat:
            raise Unmade(f"{page} has no {it}")


def elements() -> list[str]:
    """The elements of docs/FORMATS.md: names that begin with a capital, at the front of a row."""
    return re.findall(r"^\| `([A-Z]\w+)[(`]", (ROOT / "docs/FORMATS.md").read_text(), re.MULTILINE)


def faults() -> list[str]:
    """The faults of docs/FORMATS.md."""
    return re.findall(r"^\| `(fault \d+: [^`]+)`", (ROOT / "docs/FORMATS.md").read_text(), re.MULTILINE)


def pages_are_right(folder: Path) -> None:
    """Each call has a page, the page of the formats has all of them, that of the program has elements and faults, and groff warns of none.

    What each page is for is read from it, so that apropos finds it.
    """
    need("groff", "lexgrog")
    it = standin.made(folder / "made")
    it.install("--prefix", folder)
    manuals = folder / "share" / "man"
    declared = checked_calls(Setting(ROOT, it.archive, folder))
    compare("pages of calls", sorted(it.stem for it in manuals.glob("man3/*")), sorted([NAME, *declared]))
    warned = subprocess.run(["groff", "-man", "-ww", "-z", "-Tutf8", "-Kutf8", *manuals.glob("*/*")], capture_output=True, text=True)
    compare("warnings of groff", (warned.returncode, warned.stderr), (0, ""))
    run(["lexgrog", *manuals.glob("*/*")])
    headings = re.findall(r"^## (.+)$", (ROOT / "docs/FORMATS.md").read_text(), re.MULTILINE)
    has_all("man 5", shown(manuals / "man5" / f"{NAME}.5"), [*(it.upper() for it in headings), *elements(), *faults()])
    has_all("man 1", shown(manuals / "man1" / f"{NAME}.1"), ["ELEMENTS", "FORMATS", "FAULTS", *elements(), *faults()])
    has_all("man 3", shown(manuals / "man3" / "clk_open.3"), ["clk_open(const char *text, size_t length,", "CLK_FAULT", "RETURN VALUE"])


def built_by_cmake(folder: Path, prefix: Path, version: str, sources: dict[str, Path], languages: str) -> dict[str, Path]:
    """Programs that CMake builds over both libraries of a prefix, by their names."""
    need("cmake")
    kinds = {"shared": NAME, "archive": "archive"}
    named = {f"{name}_{kind}": (it, target) for name, it in sources.items() for kind, target in kinds.items()}
    targets = "".join(TARGET.format(name=name, source=it, target=target) for name, (it, target) in named.items())
    folder.mkdir(parents=True)
    (folder / "CMakeLists.txt").write_text(PROJECT.format(version=version, languages=languages) + targets)
    run(["cmake", "-S", folder, "-B", folder / "build", f"-DCMAKE_PREFIX_PATH={prefix}"])
    found = re.search(r"^clickpull_DIR:PATH=(.+)$", (folder / "build" / "CMakeCache.txt").read_text(), re.MULTILINE)
    compare("where CMake finds it", found is not None and Path(found[1]).is_relative_to(prefix), True)
    run(["cmake", "--build", folder / "build"])
    return {it: folder / "build" / it for it in named}


def cmake_finds_it(folder: Path) -> None:
    """A program is built by find_package and runs, also where all was moved; another minor version isn't taken."""
    it = standin.made(folder / "made")
    it.install("--prefix", folder / "first")
    (folder / "first").rename(folder / "moved to")
    source = folder / "caller.c"
    source.write_text(standin.CALLER)
    major, minor, _ = version_numbers()
    for built in built_by_cmake(folder / "project", folder / "moved to", f"{major}.{minor}", {"caller": source}, "C").values():
        run([built])
    for another in ("0.0", f"{major}.{minor + 1}"):
        try:
            built_by_cmake(folder / another, folder / "moved to", another, {"caller": source}, "C")
        except Unmade as told:
            compare(f"why version {another} isn't taken", f"version: {VERSION}" in str(told), True)
        else:
            raise Unmade(f"version {another} is taken")


TESTS: dict[str, Callable[[Path], None]] = {
    "manual pages": pages_are_right,
    "CMake": cmake_finds_it,
}
