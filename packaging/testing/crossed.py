"""Tests what is made for machines with an ARM64 processor, over an archive that stands in. This is Python and no part of what is proved."""
import re
from collections.abc import Callable, Iterable
from pathlib import Path

from making import built
from making.debian.packages import DEVELOPING, LIBRARY, PACKAGES
from making.library import INTERFACE, run
from making.sources import NAME, ROOT
from making.targets import AMD64, ARM64
from of_library.arm64 import need_built
from testing import installed, installing, packaged, standin
from testing.checks import compare, need

# Where libraries are, below the prefix.
LIBRARIES = Path("lib", ARM64.system)


def are_for_arm64(paths: Iterable[Path]) -> None:
    """Each object of these libraries is for ARM64."""
    for it in paths:
        formats = re.findall(r"file format (\S+)$", run([ARM64.tool("objdump"), "-f", it]), re.MULTILINE)
        compare(f"the formats in {it.name}", set(formats), {"elf64-littleaarch64"})


def all_is_installed(folder: Path) -> None:
    """The program and the library are installed for ARM64, with the library's heap, and removed."""
    need("pkg-config")
    it = standin.made(folder / "made", ARM64)
    prefix = folder / "prefix"
    it.install("--prefix", prefix, toolchain=False)
    libraries = prefix / LIBRARIES
    are_for_arm64([libraries / f"lib{NAME}.a", libraries / f"lib{NAME}.so.{INTERFACE}", prefix / "bin" / NAME])
    compare("members of the heap", run(["ar", "t", libraries / f"lib{NAME}.a"]).split().count("clickpull-heap_arm64.o"), 1)
    told = run(["pkg-config", "--libs", libraries / "pkgconfig" / f"{NAME}.pc"])
    compare("where pkg-config looks", told.split(), [f"-L{libraries}", f"-l{NAME}"])
    it.alone("--uninstall", "--prefix", prefix, "--target", ARM64.architecture)
    compare("what is left", installing.files(prefix), {})


def programs_run(folder: Path) -> None:
    """Programs over the archive and over the shared library are built by a cross compiler, and run."""
    it = standin.made(folder / "made", ARM64)
    it.install("--prefix", folder, toolchain=False)
    libraries = folder / LIBRARIES
    it.calls(libraries / f"lib{NAME}.a")
    it.calls(libraries / f"lib{NAME}.so", f"-Wl,-rpath,{libraries}")


def wrong_words_are_refused(folder: Path) -> None:
    """Without a cross compiler or an emulator, and with an archive for another machine, install says so, and installs nothing."""
    it, another, compilers = standin.made(folder / "made", ARM64), standin.made(folder / "another", AMD64), folder / "compilers"
    compilers.mkdir()
    installing.is_refused("Debian's gcc-aarch64-linux-gnu has it", it, searched=str(compilers))
    (compilers / ARM64.tool("cc")).symlink_to("/bin/true")
    installing.is_refused("Debian's qemu-user has it", it, searched=str(compilers))
    installing.is_refused("file in wrong format", it, "--archive", another.archive)


def packages_are_made(folder: Path) -> None:
    """The packages of the program and the library are for ARM64, and those for all machines are this machine's."""
    it = standin.made(folder / "made", ARM64)
    packages = packaged.made_twice(folder / "packages", "--program", it.program, "--archive", it.archive, target=ARM64)
    compiled = {it.name for it in PACKAGES if it.compiled}
    for name, path in packages.files.items():
        wanted = ARM64.architecture if name in compiled else "all"
        compare(f"for which machines {name} is", run(["dpkg-deb", "--field", path, "Architecture"]).strip(), wanted)
        if name not in compiled:
            compare(f"whether {name} is this machine's", path.read_bytes() == packaged.of_standin().files[name].read_bytes(), True)
    program, library, developing = (packages.unpacked(name) / "usr" for name in (NAME, LIBRARY, DEVELOPING))
    are_for_arm64([program / "bin" / NAME, library / LIBRARIES / f"lib{NAME}.so.{INTERFACE}", developing / LIBRARIES / f"lib{NAME}.a"])
    packaged.symbols_agree(packages, standin.OWN)


def program_answers(_: Path) -> None:
    """The program that is built for ARM64 runs under the emulator."""
    need(ARM64.runner[0])
    program = need_built(built.place_of_program(ARM64))
    installed.answers_are_right(ROOT / "examples", lambda *words: run([*ARM64.runner, program, *words]))


TESTS: dict[str, Callable[[Path], None]] = {
    "what is installed for ARM64": all_is_installed,
    "programs over the library for ARM64": programs_run,
    "wrong words for ARM64": wrong_words_are_refused,
    "packages for ARM64": packages_are_made,
    "the program for ARM64": program_answers,
}
