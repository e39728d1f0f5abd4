"""Compares the licences and the versions that packages name. This is Python and no part of what is proved."""
import re
import shutil
import zipfile
from collections.abc import Callable
from email import message_from_bytes
from email.message import Message
from pathlib import Path

from making.debian.packages import DEVELOPING, LIBRARY
from making.library import INTERFACE, VERSION, Unmade, interface_of, run
from of_library.linked import interface_of_soname, wanted_interface
from of_library.module import python
from testing import packaged, standin
from testing.checks import compare

HERE = Path(__file__).resolve().parent
ROOT = HERE.parent.parent

# The licences, how their texts begin, and what Debian calls them.
LICENCES = {"MIT": ("LICENSE-MIT", "MIT License", "Expat"), "Apache-2.0": ("LICENSE-APACHE", "Apache License Version 2.0", "Apache-2.0")}

# Versions, each by its first two numbers, and the end of its soname.
INTERFACES = {(0, 1): "0.1", (0, 2): "0.2", (0, 10): "0.10", (1, 0): "1", (1, 2): "1", (10, 3): "10"}


def said(path: Path, pattern: str) -> str:
    """What a file says: the group of a pattern."""
    found = re.search(pattern, path.read_text(), re.MULTILINE)
    if found is None:
        raise Unmade(f"{path} has nothing like {pattern}")
    return found[1]


def words(text: str) -> str:
    """A text with one blank between words, and without the dots of Debian's empty lines."""
    return " ".join(it for it in text.split() if it != ".")


def wanted_licence() -> str:
    """The licence of the repository, as SPDX has it, after its texts were compared."""
    wanted = said(ROOT / "LICENSE", r"^SPDX-License-Identifier: (.+)$")
    compare("the licences", sorted(wanted.split(" OR ")), sorted(LICENCES))
    for file, begin, _ in LICENCES.values():
        compare(file, words((ROOT / file).read_text()).startswith(begin), True)
    return wanted


def licences_agree(_: Path) -> None:
    """The Debian packages, what pkg-config reads and the Python module name the licence that LICENSE has."""
    wanted = wanted_licence()
    compare("pyproject.toml", said(ROOT / "python" / "pyproject.toml", r'^license = \{text = "(.+)"\}'), wanted)
    package = packaged.of_standin()
    compare("clickpull.pc", said(next(package.unpacked(DEVELOPING).rglob("clickpull.pc")), r"^License: (.+)$"), wanted)
    for it in package.files:
        copyright_agrees(package.unpacked(it) / "usr/share/doc" / it / "copyright", wanted)


def copyright_agrees(copyright_: Path, wanted: str) -> None:
    """What Debian reads of the licence is that of LICENSE, with its texts."""
    names = [LICENCES[it][2] for it in wanted.split(" OR ")]
    compare("Debian's licence", said(copyright_, r"^Files: \*\n.+\nLicense: (.+)$"), " or ".join(names))
    compare("Debian's holder", said(copyright_, r"^Copyright: (.+)$"), said(ROOT / "LICENSE", r"^Copyright \(c\) (.+)$"))
    stanzas = dict(re.findall(r"^License: (\S+)\n((?: .*\n)+)", copyright_.read_text(), re.MULTILINE))
    compare("licences with a text", sorted(stanzas), sorted(names))
    compare("the text of the MIT licence", words(stanzas["Expat"]), words((ROOT / "LICENSE-MIT").read_text()))
    compare("where the Apache licence is", "/usr/share/common-licenses/Apache-2.0." in stanzas["Apache-2.0"], True)


def versions_agree(_: Path) -> None:
    """What pkg-config reads and the Debian packages have the version that the header says."""
    package = packaged.of_standin()
    compare("clickpull.pc", said(next(package.unpacked(DEVELOPING).rglob("clickpull.pc")), r"^Version: (.+)$"), VERSION)
    for name, it in package.files.items():
        control = package.unpacked(name) / "DEBIAN/control"
        compare(f"the version of {name}", said(control, r"^Version: (.+)$"), VERSION)
        compare("the file", it.name, f"{name}_{VERSION}_{said(control, r'^Architecture: (.+)$')}.deb")


def interfaces_agree(_: Path) -> None:
    """The shared library, its Debian package and the Python module have the soname of the version."""
    package, wanted = packaged.of_standin().unpacked(LIBRARY), wanted_interface()
    shared = next(package.rglob("libclickpull.so.*"))
    compare("the library's name", interface_of_soname(shared), wanted)
    compare("the library's file", shared.name, f"libclickpull.so.{wanted}")
    compare("Debian's package", LIBRARY, f"libclickpull{wanted}")
    compare("Debian's shlibs", (package / "DEBIAN/shlibs").read_text(), f"libclickpull {wanted} libclickpull{wanted}\n")
    # The second line is that of the symbols file only where the first is.
    symbols = [f"libclickpull.so.{wanted} libclickpull{wanted} #MINVER#", f"* Build-Depends-Package: {DEVELOPING}"]
    compare("Debian's symbols", (package / "DEBIAN/symbols").read_text().splitlines()[:2], symbols)
    compare("the Python module", said(ROOT / "python" / "clickpull" / "library.py", r'NAME \+ "\.([\d.]+)"'), wanted)


def sonames_of_versions(_: Path) -> None:
    """The soname ends in MAJOR, and before version 1.0 in 0.MINOR."""
    for numbers, wanted in INTERFACES.items():
        compare(f"the end of the soname of {numbers}", interface_of(*numbers), wanted)


def wheel_of(source: Path, folder: Path) -> tuple[str, dict[str, bytes]]:
    """The wheel that pip makes without a network: its tag, and its files by their path, where that of its own has no version."""
    interpreter = python("pip", "setuptools", "wheel")
    run([interpreter, "-m", "pip", "wheel", "-q", "--no-index", "--no-deps", "--no-build-isolation", "-w", folder, source])
    wheel = next(folder.glob("*.whl"))
    with zipfile.ZipFile(wheel) as packed:
        files = {re.sub(r"^clickpull-[^/]*\.", "", it): packed.read(it) for it in packed.namelist()}
    return wheel.stem.split("-", 2)[2], files


def wheels_are_right(folder: Path) -> None:
    """A wheel has the module's version and licence, and is for any platform unless it carries the library."""
    source = folder / "python"
    texts = ["LICENSE", *(file for file, _, _ in LICENCES.values())]
    shutil.copytree(ROOT / "python", source, ignore=shutil.ignore_patterns("build", "*.egg-info"))
    for it in texts:
        shutil.copyfile(ROOT / it, folder / it)
    tag, files = wheel_of(source, folder / "pure")
    compare("the tag", tag, "py3-none-any")
    told: Message = message_from_bytes(files["dist-info/METADATA"])
    compare("the version", told["Version"], said(ROOT / "python" / "clickpull" / "__init__.py", r'^__version__ = "(.+)"$'))
    compare("the licence", told["License"], wanted_licence())
    compare("the texts of licences", [files.get(f"dist-info/{it}") for it in texts], [(ROOT / it).read_bytes() for it in texts])
    (source / "clickpull" / f"libclickpull.so.{INTERFACE}").write_text("stands in")
    tag, files = wheel_of(source, folder / "carries")
    compare("the tag with the library", re.fullmatch(r"py3-none-linux_\w+", tag) is not None, True)
    compare("the library", files.get(f"clickpull/libclickpull.so.{INTERFACE}"), b"stands in")


TESTS: dict[str, Callable[[Path], None]] = {
    "licences": licences_agree,
    "versions": versions_agree,
    "interfaces": interfaces_agree,
    "sonames of versions": sonames_of_versions,
    "wheels": wheels_are_right,
}
