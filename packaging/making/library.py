"""Makes the libraries. This is Python and no part of what is proved."""
import os
import re
import shutil
import subprocess
import tempfile
from collections import Counter
from collections.abc import Iterator
from pathlib import Path

from making.sources import HEADER, ROOT
from making.targets import ARM64, OWN, Target

# The calls of the header as exports, and all that the shared library exports.
CALLS, EXPORTS = ROOT / "packaging" / "calls.c", ROOT / "packaging" / "exports.map"

# What takes memory from the C library on a machine for which the toolchain has nothing that does.
HEAPS = {ARM64: ROOT / "packaging" / "heap_arm64.c"}

# The call that an archive has if it has those of CALLS.
VERSION_CALL = "clk_version"


def version_numbers() -> list[int]:
    """The numbers of the version that the header says: major, minor and patch."""
    return [int(it) for it in re.findall(r"^#define CLK_VERSION_(?:MAJOR|MINOR|PATCH) (\d+)$", HEADER.read_text(), re.MULTILINE)]


def interface_of(major: int, minor: int) -> str:
    """The part of a version in which the soname ends: MAJOR, and 0.MINOR before 1.0, where a minor version may break callers."""
    return f"0.{minor}" if major == 0 else str(major)


# The version, and the end of the soname.
VERSION, INTERFACE = ".".join(map(str, version_numbers())), interface_of(*version_numbers()[:2])

# How the names of the toolchain's functions begin.
HEAP = "rattle_"


class Unmade(Exception):
    """Making something failed. The message gives the reason, or the command that failed with its output."""


def run(command: list[str | Path], environment: dict[str, str] | None = None, folder: Path | None = None) -> str:
    """What a command writes, which runs in a folder and has more in its environment."""
    more = {**os.environ, **(environment or {})}
    done = subprocess.run([str(it) for it in command], stdin=subprocess.DEVNULL, capture_output=True, text=True, env=more, cwd=folder)
    if done.returncode != 0:
        raise Unmade(f"{' '.join(map(str, command))}\n{done.stdout}{done.stderr}")
    return done.stdout


def need_tools(target: Target) -> None:
    """Raises Unmade where there is no C compiler, or nothing that runs a program for another machine."""
    compiler = target.tool("cc")
    if shutil.which(compiler) is None:
        package = "" if target.is_own else f" Debian's {target.package('gcc')} has it."
        what = "it compiles the calls of clickpull.h and links the shared library."
        raise Unmade(f"{compiler}, a C compiler, isn't on the PATH: {what}{package}")
    if target.runner and shutil.which(target.runner[0]) is None:
        raise Unmade(f"{target.runner[0]} isn't on the PATH: it runs the program, whose help becomes its manual page. Debian's qemu-user has it.")


def names(kind: str, prefix: str, archive: Path) -> set[str]:
    """The global names of an archive, of this kind by nm and with this prefix."""
    return set(re.findall(rf" {kind} ({prefix}\w+)$", run(["nm", "-g", archive]), re.MULTILINE))


def lacks_heap(archive: Path) -> bool:
    """Whether an archive calls functions of the toolchain that it doesn't define. All of these take memory or free it."""
    return bool(names("U", HEAP, archive) - names("[A-TV-Z]", HEAP, archive))


def kit() -> Path | None:
    """The folder of the toolchain, if rt is on the PATH."""
    rt = shutil.which("rt")
    return Path(rt).resolve().parent.parent if rt else None


def heap(archive: Path, target: Target, folder: Path) -> list[Path]:
    """What takes memory from the C library, in a folder; none if the archive has it."""
    if not lacks_heap(archive):
        return []
    if target in HEAPS:
        return [compiled(HEAPS[target], target, folder)]
    toolchain = kit()
    path = toolchain / "c" / "liblibc_c.a" if toolchain else None
    if path is None or not path.exists():
        raise Unmade(f"{archive} lacks the toolchain's heap: put `rt` on the PATH, with its toolchain")
    return list(members(path, folder))


def calls(archive: Path, target: Target, folder: Path) -> list[Path]:
    """The calls of the header, compiled to a file in a folder; none if the archive has them."""
    return [] if VERSION_CALL in names("T", "clk_", archive) else [compiled(CALLS, target, folder)]


def compiled(source: Path, target: Target, folder: Path) -> Path:
    """A source of C, compiled to a file in a folder."""
    made = free(folder, f"clickpull-{source.stem}.o")
    run([target.tool("cc"), "-std=c11", "-O2", "-fPIC", "-c", source, "-o", made])
    return made


def members(archive: Path, folder: Path) -> Iterator[Path]:
    """Extracts the members of an archive to a folder. One whose name is taken there gets a number before its name."""
    with tempfile.TemporaryDirectory(dir=folder) as below:
        for name, count in Counter(run(["ar", "t", archive]).splitlines()).items():
            for number in range(1, count + 1):
                # An archive may have several members of one name: N says which is meant.
                run(["ar", "xN", str(number), archive, name], folder=Path(below))
                yield (Path(below) / name).rename(free(folder, name))


def free(folder: Path, name: str) -> Path:
    """A path of this name that isn't taken, with a number before the name where it has to be."""
    path, number = folder / name, 1
    while path.exists():
        number += 1
        path = folder / f"{number}-{name}"
    return path


def make_archive(archive: Path, path: Path, target: Target = OWN) -> None:
    """Makes one archive of an archive, a heap and the calls of the header, so that a program links it alone."""
    with tempfile.TemporaryDirectory(prefix="clickpull-archive-") as below:
        folder = Path(below)
        parts = [*members(archive.resolve(), folder), *heap(archive, target, folder), *calls(archive, target, folder)]
        run([target.tool("ar"), "rcsD", path, *parts])


def make_shared(archive: Path, path: Path, target: Target = OWN) -> None:
    """Makes the shared library of an archive that is whole. It exports what the header declares and nothing else."""
    flags = ["-shared", f"-Wl,-soname,{path.name}", f"-Wl,--version-script={EXPORTS}", "-Wl,-z,defs", "-Wl,-z,relro", "-Wl,-z,now"]
    run([target.tool("cc"), *flags, "-o", path, "-Wl,--whole-archive", archive, "-Wl,--no-whole-archive"])
