"""Builds by the toolchain what is installed. This is Python and no part of what is proved."""
import contextlib
import subprocess
import sys
from collections.abc import Iterator
from pathlib import Path

from making import compiler
from making.library import HEAPS, Unmade, kit, run
from making.sources import CRATES, NAME, ROOT
from making.targets import AMD64, Target

# What the program takes from its process, on machines for which the toolchain has nothing that does.
PROCESS = ROOT / "packaging" / "os_arm64.c"

# The crate of the library, and what its archive is called.
LIBRARY = f"{NAME}_c"
ARCHIVE = f"lib{LIBRARY}.a"


def toolchain() -> Path:
    """The folder of the toolchain."""
    found = kit()
    if found is None:
        raise Unmade("rt, the toolchain, isn't on the PATH")
    return found


def by_toolchain(crate: str, words: list[str]) -> None:
    """Runs a command of the toolchain in the folder of a crate."""
    folder = CRATES / crate
    if not folder.is_dir():
        raise Unmade(f"there is no crate {crate}")
    toolchain()
    if subprocess.run(words, cwd=folder, stdin=subprocess.DEVNULL, stdout=sys.stderr).returncode != 0:
        raise Unmade(f"{' '.join(words)} fails in {folder}")


def place(crate: str, name: str, target: Target) -> Path:
    """Where what is built of a crate for a machine is left."""
    out = CRATES / crate / "out"
    return out / name if target == AMD64 else out / target.architecture / name


def place_of_program(target: Target) -> Path:
    """Where the program for a machine is left."""
    return place(NAME, NAME, target)


def place_of_archive(target: Target) -> Path:
    """Where the archive for a machine is left."""
    return place(LIBRARY, ARCHIVE, target)


def program(target: Target) -> Path:
    """The program for a machine, which is proved and built. rt links it for x86-64 alone."""
    path = place_of_program(target)
    if target == AMD64:
        by_toolchain(NAME, ["rt", "run", "--", "--version"])
        return path
    uses = compiler.uses_of_crates()
    for it in uses[NAME]:
        if it in uses:
            by_toolchain(it, ["rt", "lib"])
    path.parent.mkdir(parents=True, exist_ok=True)
    compiled = path.with_suffix(".o")
    compiler.build(toolchain(), NAME, target, compiled)
    run([target.tool("cc"), "-std=gnu11", "-O2", "-fPIE", compiled, HEAPS[target], PROCESS, "-o", path])
    return path


def archive(target: Target) -> Path:
    """The archive for a machine, which is proved and built. rt leaves each at one place, from which that for another machine moves."""
    path, left = place_of_archive(target), place_of_archive(AMD64)
    if target == AMD64:
        by_toolchain(LIBRARY, ["rt", "lib"])
        return path
    with set_aside(left):
        by_toolchain(LIBRARY, ["rt", "lib", "--target", target.triple])
        path.parent.mkdir(parents=True, exist_ok=True)
        return left.replace(path)


@contextlib.contextmanager
def set_aside(path: Path) -> Iterator[None]:
    """Moves a file away, if it is there, and back in the end."""
    aside = path.with_name(f"{path.name}.aside")
    if path.exists():
        path.replace(aside)
    try:
        yield
    finally:
        if aside.exists():
            aside.replace(path)
