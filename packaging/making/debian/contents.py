"""Puts what Debian's packages have beside what packaging/install installs: pages, examples, and sources in Python and Rust.

This is Python and no part of what is proved.
"""
import gzip
import re
import shutil
from collections.abc import Iterable
from pathlib import Path

from making.debian.packages import PYTHON
from making.library import VERSION, Unmade
from making.sources import NAME, ROOT

# The pages and folders for those who use what is installed. The other pages speak of sources that no package has.
PAGES = ("README", "CHANGELOG", *(f"docs/{it}" for it in ("LIBRARY", "PROGRAM", "FORMATS", "GLOSSARY", "THEOREM", "PROVED", "MEASURED")))
READMES = ("packaging/README", "python/README", "rust/README", "pictures/README")
FOLDERS = ("docs/pictures", "examples", "pictures/drawing")
# The tools that draw, and a clock for tests, to which a page leads.
TOOLS = ("pictures/draw", "pictures/python", "python/tests/clocks.py")
# What of the crate for Rust is no test: its tests read files of the repository.
OF_RUST = ("Cargo.toml", "README.md", "build.rs", "src/*", "examples/*", "benches/*")

# What Python's tools read of a module, and what pyproject.toml calls it.
KEYS = {"Summary": "description", "License": "license", "Requires-Python": "requires-python"}


def put(source: Path, path: Path) -> None:
    """Puts a file, which can be executed if its source can."""
    path.parent.mkdir(parents=True, exist_ok=True)
    shutil.copyfile(source, path)
    path.chmod(0o755 if source.stat().st_mode & 0o100 else 0o644)


def put_all(sources: Iterable[Path], top: Path, folder: Path) -> None:
    """Puts files to a folder, each at the place that it has below the top."""
    for it in sources:
        if it.is_file() and "__pycache__" not in it.parts:
            put(it, folder / it.relative_to(top))


def write(text: str, path: Path) -> None:
    """Puts a text."""
    path.parent.mkdir(parents=True, exist_ok=True)
    path.write_text(text)
    path.chmod(0o644)


def put_documents(root: Path) -> None:
    """Puts pages, examples and the tools of the pictures, so that links from one to another lead there."""
    sources = [ROOT / f"{it}.md" for it in (*PAGES, *READMES)] + [ROOT / it for it in TOOLS]
    folders = [it for folder in FOLDERS for it in (ROOT / folder).rglob("*")]
    documents = root / "usr/share/doc" / NAME
    put_all([*sources, *folders], ROOT, documents)
    # Pages lead to the headers, which another package has.
    (documents / "include").symlink_to("../../../include")


def metadata() -> str:
    """What Python's tools read of the module. Its words are those of pyproject.toml, which names the version elsewhere."""
    told = dict(re.findall(r'^([\w-]+) = (?:\{text = )?"([^"]+)"', (ROOT / "python/pyproject.toml").read_text(), re.MULTILINE))
    words = {name: told.get(key) for name, key in KEYS.items()}
    if None in words.values():
        raise Unmade(f"python/pyproject.toml lacks one of {', '.join(KEYS.values())}")
    return f"Metadata-Version: 2.1\nName: {NAME}\nVersion: {VERSION}\n" + "".join(f"{name}: {it}\n" for name, it in words.items())


def put_python(root: Path) -> None:
    """Puts the module for Python, where Debian's Python finds it, and what tells its version."""
    modules = root / "usr/lib/python3/dist-packages"
    put_all((ROOT / "python" / NAME).glob("*.py*"), ROOT / "python", modules)
    put_all((ROOT / "python" / NAME).glob("py.typed"), ROOT / "python", modules)
    put(ROOT / "python/README.md", root / "usr/share/doc" / PYTHON / "README.md")
    write(metadata(), modules / f"{NAME}-{VERSION}.dist-info" / "METADATA")


def put_rust(root: Path) -> None:
    """Puts the sources of the crate, where Debian's cargo finds them. No registry has sums of their files, which cargo asks for."""
    folder = root / "usr/share/cargo/registry" / f"{NAME}-{VERSION}"
    put_all([it for pattern in OF_RUST for it in (ROOT / "rust").glob(pattern)], ROOT / "rust", folder)
    write('{"package":null,"files":{}}\n', folder / ".cargo-checksum.json")


def packed(path: Path, text: bytes) -> None:
    """Writes a text, packed so that it is the same each time."""
    path.parent.mkdir(parents=True, exist_ok=True)
    path.write_bytes(gzip.compress(text, 9, mtime=0))


def pack_manuals(root: Path) -> None:
    """Packs all manual pages."""
    for it in list(root.glob("usr/share/man/*/*")):
        packed(it.with_name(f"{it.name}.gz"), it.read_bytes())
        it.unlink()
