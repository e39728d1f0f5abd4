"""Makes a package of the files of its own, with what dpkg reads. This is Python and no part of what is proved."""
import hashlib
import re
import shutil
from collections.abc import Iterator
from dataclasses import dataclass
from email.utils import formatdate
from pathlib import Path

from making import licence
from making.debian.contents import packed, write
from making.debian.packages import LIBRARY, MEANS, PYTHON, Package
from making.library import INTERFACE, VERSION, Unmade, run
from making.sources import NAME
from making.targets import Target

MAINTAINER = "Joistdock maintainers <maintainers@users.noreply.joistdock.example>"
SYMBOLS = Path(__file__).resolve().parents[2] / f"{LIBRARY}.symbols"

CHANGE = """clickpull ({version}) unstable; urgency=medium

  * Made by packaging/debian.

 -- {maintainer}  {date}
"""

# Python's modules are compiled once they are there, and what is compiled goes with them.
AFTER = """#!/bin/sh
set -e
if [ "$1" = configure ] && command -v py3compile >/dev/null 2>&1; then
    py3compile -p {name}
fi
"""
BEFORE = """#!/bin/sh
set -e
if command -v py3clean >/dev/null 2>&1; then
    py3clean -p {name}
else
    rm -rf /usr/lib/python3/dist-packages/{module}/__pycache__
fi
"""


@dataclass(frozen=True)
class Release:
    """What all packages have in common: for which machines compiled files are, and when the sources were committed."""

    target: Target
    made: int

    def architecture(self, package: Package) -> str:
        """For which machines a package is."""
        return self.target.architecture if package.compiled else "all"


def files(root: Path) -> Iterator[Path]:
    """The files and links of a package, without what dpkg reads."""
    return (it for it in sorted(root.rglob("*")) if (it.is_symlink() or it.is_file()) and "DEBIAN" not in it.relative_to(root).parts[:1])


def split(whole: Path, packages: tuple[Package, ...], below: Path) -> None:
    """Moves the files of each package to a folder with its name. Each file is of one package."""
    for it in files(whole):
        path = str(it.relative_to(whole))
        owners = [package.name for package in packages if package.has(path)]
        if len(owners) != 1:
            raise Unmade(f"{path} is of {' and '.join(owners) or 'no package'}")
        moved = below / owners[0] / path
        moved.parent.mkdir(parents=True, exist_ok=True)
        it.rename(moved)


def linked(root: Path) -> list[Path]:
    """The program and the shared library, if the package has them."""
    return [it for it in files(root) if not it.is_symlink() and it.read_bytes().startswith(b"\x7fELF")]


def strip(root: Path, target: Target) -> None:
    """Takes out what only debuggers read."""
    words: list[str | Path] = [target.tool("strip"), "--remove-section=.comment", "--remove-section=.note"]
    for it in linked(root):
        run([*words, "--strip-unneeded", it])
    for it in root.rglob("*.a"):
        run([*words, "--strip-debug", "--enable-deterministic-archives", it])


def libc_of(root: Path, target: Target) -> str:
    """The version of the C library that linked files need."""
    needed = [(2, 17)]
    for it in linked(root):
        told = run([target.tool("objdump"), "-T", it])
        needed += [(int(found[1]), int(found[2])) for found in re.finditer(r"GLIBC_(\d+)\.(\d+)", told)]
    return ".".join(map(str, max(needed)))


def document(root: Path, package: Package, release: Release) -> None:
    """What Debian wants beside: a change log, and whose the package is."""
    documents = root / "usr/share/doc" / package.name
    change = CHANGE.format(version=VERSION, maintainer=MAINTAINER, date=formatdate(release.made))
    packed(documents / "changelog.gz", change.encode())
    write(licence.for_debian(), documents / "copyright")


def control(root: Path, package: Package, release: Release) -> str:
    """The file that names the package and what it needs."""
    size = sum((it.lstat().st_size + 1023) // 1024 for it in files(root))
    fields = {"Package": package.name, "Source": NAME} if package.name != NAME else {"Package": NAME}
    fields |= {"Version": VERSION, "Architecture": release.architecture(package), "Maintainer": MAINTAINER}
    fields |= {"Installed-Size": str(size), "Section": package.section, "Priority": "optional"}
    fields |= {name: it.format(version=VERSION, libc=libc_of(root, release.target)) for name, it in package.fields.items()}
    account = "".join(f" {it or '.'}\n" for it in f"{MEANS}\n\n{package.account}".splitlines())
    return "".join(f"{name}: {it}\n" for name, it in fields.items()) + f"Description: {package.title}\n{account}"


def put_library(root: Path, target: Target) -> None:
    """What dpkg reads of the shared library: what programs over it depend on, which symbols it has, and that the loader's list is made anew."""
    if not SYMBOLS.exists():
        raise Unmade(f"{SYMBOLS} is missing: where the soname is new, rename the symbols file and change its first line")
    told = root / "DEBIAN"
    write("activate-noawait ldconfig\n", told / "triggers")
    write(f"lib{NAME} {INTERFACE} {LIBRARY}\n", told / "shlibs")
    shared = next(root.glob(f"usr/lib/*/lib{NAME}.so.{INTERFACE}"))
    words: list[str | Path] = ["dpkg-gensymbols", "-q", "-c0", f"-a{target.architecture}", f"-p{LIBRARY}", f"-v{VERSION}"]
    run([*words, f"-I{SYMBOLS}", f"-e{shared}", f"-P{root}", f"-O{told / 'symbols'}"])


def put_scripts(root: Path) -> None:
    """What dpkg runs once the module for Python is there, and before it is removed."""
    for name, text in (("postinst", AFTER), ("prerm", BEFORE)):
        write(text.format(name=PYTHON, module=NAME), root / "DEBIAN" / name)
        (root / "DEBIAN" / name).chmod(0o755)


def describe(root: Path, package: Package, release: Release) -> None:
    """Puts what dpkg reads of a package."""
    told = root / "DEBIAN"
    write(control(root, package, release), told / "control")
    sums = (f"{hashlib.md5(it.read_bytes()).hexdigest()}  {it.relative_to(root)}\n" for it in files(root) if not it.is_symlink())
    write("".join(sums), told / "md5sums")
    if package.name == LIBRARY:
        put_library(root, release.target)
    if package.name == PYTHON:
        put_scripts(root)


def build(root: Path, package: Package, release: Release, folder: Path) -> Path:
    """Makes a package of its files, and says where it is."""
    if package.compiled:
        strip(root, release.target)
    document(root, package, release)
    describe(root, package, release)
    for it in root.rglob("*"):
        if it.is_dir() and not it.is_symlink():
            it.chmod(0o755)
    root.chmod(0o755)
    path = folder / f"{package.name}_{VERSION}_{release.architecture(package)}.deb"
    # No file is newer than the sources, so that these make the same package again.
    run(["dpkg-deb", "--root-owner-group", "--build", root, path], environment={"SOURCE_DATE_EPOCH": str(release.made)})
    shutil.rmtree(root)
    return path
