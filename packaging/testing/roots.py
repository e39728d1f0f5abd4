"""Makes roots into which packages are installed by dpkg. This is Python and no part of what is proved."""
import re
import shutil
from collections.abc import Iterable, Mapping
from pathlib import Path

from making.library import Unmade, run
from testing.checks import compare, need

# A package that is there already, so that what is installed finds what it depends on.
THERE = """Package: {name}
Status: install ok installed
Architecture: {architecture}
Multi-Arch: {multi}
Version: {version}
Maintainer: nobody
Description: stands for what the machine has

"""

# What our packages depend on. The files of the C library are copied; what the others have is used from outside, or copied where a test wants it.
OTHERS = ("libc6", "libc6-dev", "python3", "pkg-config")

# Where dpkg and the tests themselves write.
WRITTEN = ("var/lib/dpkg", "var/log", "srv")
LIBRARIES = "/srv/lib"

PYTHON = Path("/usr/bin/python3")


def dpkg(root: Path, *words: str | Path) -> str:
    """Runs dpkg on a root."""
    return run(["dpkg", f"--root={root}", "--force-not-root", *words])


def inside(root: Path, *words: str | Path) -> str:
    """What a program writes in the root."""
    return run(["chroot", root, *words], environment={"LD_LIBRARY_PATH": LIBRARIES})


def linked(program: Path) -> list[Path]:
    """The libraries of this machine that a program is linked to."""
    return [Path(it) for it in run(["ldd", program]).split() if it.startswith("/")]


def put_program(root: Path, program: Path) -> None:
    """Copies a program, or a library, of this machine with the libraries that it is linked to."""
    for it in (program, *linked(program)):
        path = root / str(it)[1:]
        path.parent.mkdir(parents=True, exist_ok=True)
        shutil.copy(it, path)


def put_libraries(root: Path, program: Path) -> None:
    """Copies what a program that was built for the tests is linked to, and the root lacks, to a folder of the tests."""
    (root / LIBRARIES[1:]).mkdir(exist_ok=True)
    for it in linked(program):
        if not (root / str(it)[1:]).exists():
            shutil.copy(it, root / LIBRARIES[1:])


def put_python(root: Path) -> None:
    """Copies Debian's Python, with what the module needs of it."""
    put_program(root, PYTHON)
    modules = Path(run([PYTHON, "-c", "import os; print(os.path.dirname(os.__file__))"]).strip())
    shutil.copytree(modules, root / str(modules)[1:], ignore=shutil.ignore_patterns("test", "config-*", "__pycache__"), dirs_exist_ok=True)
    for it in modules.glob("lib-dynload/_ctypes.*"):
        put_program(root, it)


def empty(root: Path) -> None:
    """Makes an empty root, with the C library, and sh and rm for what dpkg runs."""
    for it in ("info", "updates", "triggers"):
        (root / "var/lib/dpkg" / it).mkdir(parents=True)
    (root / "srv").mkdir()
    architecture = run(["dpkg", "--print-architecture"]).strip()
    stanzas = [THERE.format(name=it, architecture=architecture, multi="same" if it.startswith("libc6") else "allowed", version="99") for it in OTHERS]
    (root / "var/lib/dpkg/status").write_text("".join(stanzas))
    for it in ("/bin/sh", "/bin/rm"):
        put_program(root, Path(it))
    if PYTHON.exists():
        put_python(root)


def debian(root: Path) -> None:
    """Makes a small Debian."""
    need("debootstrap")
    run(["debootstrap", "--variant=minbase", f"--include={','.join(OTHERS)}", "stable", root])


def contents(root: Path) -> set[str]:
    """All that is in a root, without what dpkg and tests write."""
    paths = (str(it.relative_to(root)) for it in root.rglob("*"))
    return {it for it in paths if not it.startswith(WRITTEN)}


def nothing_is_left(root: Path, packages: Iterable[str], before: set[str]) -> None:
    """Once these packages are removed, the root has what it had before."""
    if contents(root) <= before:
        raise Unmade("nothing was installed")
    dpkg(root, "--purge", *packages)
    compare("what is left", sorted(contents(root) - before), [])
    compare("what is gone", sorted(before - contents(root)), [])


def depended_on(name: str, packages: Mapping[str, Path]) -> set[str]:
    """A package, and those of ours that it depends on."""
    found = re.findall(r"[a-z][\w.+-]+", run(["dpkg-deb", "--field", packages[name], "Depends"]))
    return {name}.union(*(depended_on(it, packages) for it in found if it in packages))


def each_alone(folder: Path, packages: Mapping[str, Path]) -> None:
    """Each package is installed in an empty root of its own with those that it depends on, and leaves nothing when it is removed."""
    for name in packages:
        root = folder / name
        root.mkdir(parents=True)
        empty(root)
        before, wanted = contents(root), sorted(depended_on(name, packages))
        dpkg(root, "--install", *(packages[it] for it in wanted))
        nothing_is_left(root, wanted, before)
        shutil.rmtree(root)
