"""Tests what packages have installed in a root. Programs are built over files of the root alone, and run there.

This is Python and no part of what is proved.
"""
import os
import re
import shlex
import shutil
from collections.abc import Callable
from pathlib import Path

from making.library import INTERFACE, VERSION, Unmade, run
from making.sources import NAME, ROOT
from of_library.checks import Setting
from of_library.compiled import ALONE, CASES, PACKETS
from of_library.shown import all_shown, shown
from testing import completing, manuals
from testing.checks import LeftOut, compare, need
from testing.roots import PYTHON, inside, put_libraries

DOCUMENTS = Path("usr/share/doc") / NAME
EXAMPLES = DOCUMENTS / "examples"

# The programs of docs/LIBRARY.md that are compiled: in which part, in which language, by which compiler, and the how manieth there.
PROGRAMS = (("In C", "c", ["cc", "-std=c11"], 0), ("In C++", "cpp", ["c++", "-std=c++17"], 0), ("In C++", "cpp", ["c++", "-std=c++17"], 1))
# The pages of docs/ for those who use what is installed.
USED = ("LIBRARY", "PROGRAM", "FORMATS", "GLOSSARY")
PYTHON_PARTS = ("In Python", "Coming from Click")

MANIFEST = """[package]
name = "shown"
version = "0.0.0"
edition = "2021"
[dependencies]
clickpull = "*"
"""
CONFIGURED = """[source.crates-io]
replace-with = "packages"
[source.packages]
directory = "{folder}"
"""


def setting(root: Path) -> Setting:
    """What reads the pages has them from the packages."""
    return Setting(root / DOCUMENTS, next(root.glob(f"usr/lib/*/lib{NAME}.a")), root / "srv")


def asked(root: Path) -> dict[str, str]:
    """With what pkg-config looks in the root alone."""
    return {"PKG_CONFIG_LIBDIR": ":".join(map(str, root.glob("usr/lib/*/pkgconfig"))), "PKG_CONFIG_SYSROOT_DIR": str(root)}


def built(root: Path, name: str, words: list[str | Path], more: tuple[str, ...] = ()) -> str:
    """Builds a program with what pkg-config says, over the shared library. Returns its path in the root."""
    need(str(words[0]), "pkg-config")
    flags = shlex.split(run(["pkg-config", "--cflags", "--libs", NAME], environment=asked(root)))
    program = root / "srv" / name
    run([*words, "-pthread", "-o", program, *flags, *more])
    if f"libclickpull.so.{INTERFACE} =>" not in run(["ldd", program]):
        raise Unmade(f"{name} isn't linked to the shared library")
    return f"/srv/{name}"


def written(root: Path, name: str, text: str) -> Path:
    """A source in the root."""
    path = root / "srv" / name
    path.parent.mkdir(parents=True, exist_ok=True)
    path.write_text(text)
    return path


# The program.


def answers_are_right(examples: Path, answer: Callable[..., str]) -> None:
    """The program has the version of the library, and each example prints what it is said to. `answer` is what the program prints for words."""
    compare("the version", answer("--version"), f"{NAME} {VERSION}\n")
    for command, ending in (("script", ".script"), ("run", ".trace")):
        for it in sorted(examples.glob(f"*{ending}")):
            compare(it.name, answer(command, it.with_suffix(".click"), it), it.with_suffix(".out").read_text())


def program_runs(root: Path) -> None:
    """The program runs in the root."""

    def answer(*words: str | Path) -> str:
        there: list[str | Path] = [Path("/") / it.relative_to(root) if isinstance(it, Path) else it for it in words]
        return inside(root, f"/usr/bin/{NAME}", *there)

    answers_are_right(root / EXAMPLES, answer)


# The library.


def tests_of_c_pass(root: Path) -> None:
    """The tests of C pass over the shared library."""
    sources = [it for it in sorted((ROOT / "tests" / "c").glob("*.c")) if it.name not in ALONE]
    if not inside(root, built(root, "calls", ["cc", "-std=c11", *sources])).endswith(" 0 failed\n"):
        raise Unmade("a check of C fails")


def tests_of_cpp_pass(root: Path) -> None:
    """The tests of C++ pass over the archive alone, and want no library of C++ in the root."""
    need("g++")
    program, include = root / "srv" / "carriers", root / "usr" / "include"
    sources = sorted((ROOT / "tests" / "cpp").glob("*.cpp"))
    run(["g++", "-std=c++17", "-static", "-pthread", "-I", include, *sources, "-o", program, setting(root).archive])
    shutil.copy(ROOT / CASES, root / "srv" / "cases")
    if not inside(root, "/srv/carriers", "/srv/cases", PACKETS).endswith(" 0 failed\n"):
        raise Unmade("a check of C++ fails")


def sources_of_pages(root: Path) -> list[tuple[Path, list[str | Path], str]]:
    """The sources of the compiled programs of docs/LIBRARY.md, each with its compiler and what the page says that it prints."""
    found: list[tuple[Path, list[str | Path], str]] = []
    for part, language, compiler, place in PROGRAMS:
        text, answer = shown(setting(root), part, language, place)
        found.append((written(root, f"page_{place}.{language}", text), list(compiler), answer))
    return found


def pages_are_right(root: Path) -> None:
    """The programs of docs/LIBRARY.md in C and C++ are built by pkg-config, and print what it says."""
    for source, compiler, answer in sources_of_pages(root):
        program = built(root, source.name.replace(".", "_"), [*compiler, source])
        put_libraries(root, root / program[1:])
        compare(source.name, inside(root, program), answer)


def cmake_finds_it(root: Path) -> None:
    """The programs of docs/LIBRARY.md in C and C++ are built by CMake, over the shared library and over the archive."""
    sources = {it[0].name.replace(".", "_"): it for it in sources_of_pages(root)}
    programs = manuals.built_by_cmake(root / "srv" / "cmake", root / "usr", VERSION, {name: it[0] for name, it in sources.items()}, "C CXX")
    for name, program in programs.items():
        put_libraries(root, program)
        compare(name, inside(root, f"/{program.relative_to(root)}"), sources[name.rpartition("_")[0]][2])


def threads_are_right(root: Path) -> None:
    """The examples on threads print what their pages say, and a record is repeated."""
    folder = root / EXAMPLES / "threads"
    compare("first", inside(root, built(root, "first", ["cc", folder / "first.c"])), shown(setting(root), "Producers on threads", "c")[1])
    for waiter in ("cond", "eventfd"):
        program = built(root, f"senders_{waiter}", ["cc", "-std=c11", folder / "senders.c", folder / f"waiter_{waiter}.c"])
        compare(waiter, inside(root, program), (folder / "senders.out").read_text())
    tree = f"/{EXAMPLES}/threads/recorded.click"
    written(root, "run.script", inside(root, built(root, "recorded", ["cc", folder / "recorded.c"]), tree))
    repeated = inside(root, f"/usr/bin/{NAME}", "script", tree, "/srv/run.script")
    compare("a record", "".join(repeated.splitlines(keepends=True)[-2:]), shown(setting(root), "Records", "c")[1])


def captures_are_right(root: Path) -> None:
    """The example that shapes a capture prints what its page says."""
    need("pkg-config", "cc")
    if "libpcap" not in run(["pkg-config", "--list-package-names"]).split():
        raise LeftOut("libpcap-dev is missing")
    folder = root / EXAMPLES / "capture"
    program = built(root, "shape", ["cc", "-D_DEFAULT_SOURCE", "-O2", *sorted(folder.glob("*.c"))], ("-lpcap",))
    put_libraries(root, root / program[1:])
    run([folder / "make", root / "srv" / "in.pcap"])
    files = [f"/{EXAMPLES}/capture/{it}" for it in ("uplink.click", "senders.table")]
    compare("shares", inside(root, program, *files, "8M", "/srv/in.pcap", "/srv/out.pcap"), (folder / "shares.out").read_text())


# The other languages.


def python_is_right(root: Path) -> None:
    """The programs of docs/LIBRARY.md in Python print what it says."""
    if not (root / str(PYTHON)[1:]).exists():
        raise LeftOut("Debian's python3 is missing")
    for part in PYTHON_PARTS:
        for text, answer in all_shown(setting(root), part, "python"):
            compare(f"a program of {part}", inside(root, PYTHON, "-c", text), answer)
    asked_for = "from importlib.metadata import version; print(version('clickpull'))"
    compare("the version", inside(root, PYTHON, "-c", asked_for), f"{VERSION}\n")


def rust_is_right(root: Path) -> None:
    """The program of docs/LIBRARY.md in Rust is built over the crate's sources, which cargo takes from their folder, and prints what it says."""
    need("cargo", "pkg-config")
    text, answer = shown(setting(root), "In Rust", "rust")
    folder = written(root, "rust/Cargo.toml", MANIFEST).parent
    written(root, "rust/src/main.rs", text)
    written(root, "rust/.cargo/config.toml", CONFIGURED.format(folder=root / "usr/share/cargo/registry"))
    run(["cargo", "build", "--offline", "-q"], environment={**asked(root), "CARGO_TARGET_DIR": str(folder / "target")}, folder=folder)
    program = folder / "target" / "debug" / "shown"
    put_libraries(root, program)
    compare("the program", inside(root, f"/{program.relative_to(root)}"), answer)


# What else there is.


def manuals_are_right(root: Path) -> None:
    """No manual page gives a warning, and that of the program has each command."""
    pages = sorted((root / "usr/share/man").glob("*/*.gz"))
    texts = {it.name: manuals.shown(it) for it in pages}
    for it in ("NAME", "SYNOPSIS", "   check", "   script", "   run", "EXIT STATUS"):
        if f"\n{it}" not in texts[f"{NAME}.1.gz"]:
            raise Unmade(f"the manual page has no {it.strip()}")


def links_lead_somewhere(root: Path) -> None:
    """Each link of a page for users leads to a file in the root. Those of other pages lead to sources too, which no package has."""
    documents = root / DOCUMENTS
    pages = [*(documents / "docs" / f"{it}.md" for it in USED), *documents.glob("*/README.md"), *documents.glob("examples/*/README.md")]
    for it in pages:
        text = re.sub(r"^```.*?^```|`[^`\n]*`", "", it.read_text(), flags=re.MULTILINE | re.DOTALL)
        links = [it.parent / link for link in re.findall(r"\]\((?![a-z]+:|#)([^)\s#]+)", text)]
        compare(f"links of {it.relative_to(documents)} that lead nowhere", [str(link) for link in links if not link.exists()], [])


def pictures_are_right(root: Path) -> None:
    """The tools draw the picture that those of the repository draw, by the installed program."""
    need("dot")
    program = root / "srv" / "bin" / NAME
    program.parent.mkdir()
    program.symlink_to(root / "usr/bin" / NAME)
    found = {"PATH": f"{program.parent}{os.pathsep}{os.environ['PATH']}"}
    tree = root / EXAMPLES / "voice-over-bulk.click"
    drawn = [run([top / "pictures" / "draw", "tree", tree], environment=found) for top in (root / DOCUMENTS, ROOT)]
    compare("the picture", drawn[0], drawn[1])


TESTS: dict[str, Callable[[Path], None]] = {
    "the program runs": program_runs,
    "the library is used": tests_of_c_pass,
    "the archive is used": tests_of_cpp_pass,
    "programs of the pages": pages_are_right,
    "programs of the pages, by CMake": cmake_finds_it,
    "programs of the pages, in Python": python_is_right,
    "programs of the pages, in Rust": rust_is_right,
    "examples on threads": threads_are_right,
    "the example with captures": captures_are_right,
    "links of the pages": links_lead_somewhere,
    "pictures": pictures_are_right,
    "manual pages": manuals_are_right,
    "completions of bash": completing.bash_completes,
    "completions of zsh": completing.zsh_completes,
}
