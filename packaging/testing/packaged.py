"""Tests the Debian packages of a program and an archive that stand in, without installing them. This is Python and no part of what is proved."""
import fnmatch
import functools
import re
import tempfile
from collections.abc import Callable
from dataclasses import dataclass
from pathlib import Path

from making.debian.building import SYMBOLS
from making.debian.packages import DEVELOPING, DOCUMENTS, LIBRARY, PACKAGES, PYTHON, RUST
from making.library import INTERFACE, VERSION, run
from making.sources import HEADERS, NAME, ROOT
from making.targets import OWN, Target
from of_library.checks import Setting
from of_library.declared import checked_calls, exported, header_of
from testing import standin
from testing.checks import compare, need

DEBIAN = Path(__file__).resolve().parent.parent / "debian"

# A few files of each package, those whose loss a user would see first. V stands for the version.
WANTED = {
    NAME: ("usr/bin/clickpull", "usr/share/man/man1/clickpull.1.gz", "usr/share/man/man5/clickpull.5.gz"),
    LIBRARY: (f"usr/lib/*/libclickpull.so.{INTERFACE}", "DEBIAN/shlibs", "DEBIAN/symbols", "DEBIAN/triggers"),
    DEVELOPING: (
        *(f"usr/include/{it}" for it in HEADERS),
        *(f"usr/lib/*/{it}" for it in ("libclickpull.a", "libclickpull.so", "pkgconfig/clickpull.pc", "cmake/clickpull/clickpull-config.cmake")),
        "usr/share/man/man3/clickpull.3.gz",
        "usr/share/man/man3/clk_open.3.gz",
    ),
    PYTHON: ("usr/lib/python3/dist-packages/clickpull/py.typed", "usr/lib/python3/dist-packages/clickpull-V.dist-info/METADATA"),
    RUST: ("usr/share/cargo/registry/clickpull-V/Cargo.toml", "usr/share/cargo/registry/clickpull-V/src/lib.rs"),
    DOCUMENTS: tuple(f"usr/share/doc/clickpull/{it}" for it in ("README.md", "docs/FORMATS.md", "examples/two-uplinks.click", "pictures/draw")),
}


@dataclass(frozen=True)
class Packaged:
    """The packages in a folder, by their names."""

    folder: Path
    files: dict[str, Path]

    def unpacked(self, name: str) -> Path:
        """The folder of a package's files, with what dpkg reads in DEBIAN."""
        folder = self.folder / "unpacked" / name
        if not folder.exists():
            folder.parent.mkdir(exist_ok=True)
            run(["dpkg-deb", "--raw-extract", self.files[name], folder])
        return folder


def made(folder: Path, target: Target, *words: str | Path) -> Packaged:
    """The packages for a machine that packaging/debian makes with these words."""
    need("dpkg", "dpkg-deb", "dpkg-gensymbols", target.tool("objdump"), target.tool("strip"))
    folder.mkdir(parents=True, exist_ok=True)
    paths = map(Path, run([DEBIAN, folder, "--target", target.architecture, *words]).splitlines())
    return Packaged(folder, {it.name.partition("_")[0]: it for it in paths})


def made_twice(folder: Path, *words: str | Path, target: Target = OWN) -> Packaged:
    """The packages, which are made again to see that they are the same."""
    first, again = made(folder / "first", target, *words), made(folder / "again", target, *words)
    compare("the packages", sorted(first.files), sorted(it.name for it in PACKAGES))
    differ = [name for name, it in first.files.items() if it.read_bytes() != again.files[name].read_bytes()]
    compare("packages that differ when they are made again", differ, [])
    return first


# The folder of the packages of the stand-in, which all tests share. Where making them fails, the next test tries again in a new folder below.
SHARED = tempfile.TemporaryDirectory(prefix="clickpull-packaged-")


@functools.cache
def of_standin() -> Packaged:
    """The packages of the stand-in."""
    folder = Path(tempfile.mkdtemp(dir=SHARED.name))
    it = standin.made(folder / "made")
    it.install("--prefix", folder / "installed")
    return made_twice(folder / "packages", "--program", it.program, "--archive", folder / "installed" / "lib" / "libclickpull.a")


def files_are_there(_: Path) -> None:
    """Each package has its files, and is the same when it is made again."""
    for name, patterns in WANTED.items():
        package = of_standin().unpacked(name)
        paths = [str(it.relative_to(package)) for it in package.rglob("*")]
        for pattern in patterns:
            compare(f"{name}: {pattern}", len(fnmatch.filter(paths, pattern.replace("V", VERSION))), 1)


def lintian_agrees(packages: Packaged) -> None:
    """Debian's own checks find no error and nothing to warn of."""
    need("lintian")
    compare("what lintian tells", run(["lintian", "--allow-root", "--fail-on", "error,warning", *packages.files.values()]), "")


def symbols_agree(packages: Packaged, others: tuple[str, ...] = ()) -> None:
    """The symbols file lists what the header declares and the shared library exports. Other exports get the package's version."""
    package = packages.unpacked(LIBRARY)
    setting = Setting(ROOT, package, package)
    listed = re.findall(r"^ (\w+)@Base ", SYMBOLS.read_text(), re.MULTILINE)
    compare("symbols", sorted(listed), sorted([*header_of(setting).calls, *checked_calls(setting)]))
    shared = next(package.glob(f"usr/lib/*/lib{NAME}.so.*"))
    compare("the library's exports", exported(shared, "-D"), sorted([*listed, *others]))
    told = (package / "DEBIAN" / "symbols").read_text()
    for it in others:
        compare(f"the version of {it}", f"\n {it}@Base {VERSION}\n" in told, True)


def symbols_of_standin(_: Path) -> None:
    """The symbols are those of the library over the stand-in, which has two exports of its own."""
    symbols_agree(of_standin(), standin.OWN)


TESTS: dict[str, Callable[[Path], None]] = {
    "files of packages": files_are_there,
    "symbols": symbols_of_standin,
}
