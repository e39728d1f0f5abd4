"""Which packages there are, and which files each one has. This is Python and no part of what is proved."""
from dataclasses import dataclass, field
from fnmatch import fnmatch

from making.library import INTERFACE
from making.sources import NAME

LIBRARY = f"lib{NAME}{INTERFACE}"
DEVELOPING = f"lib{NAME}-dev"
DOCUMENTS = f"{NAME}-doc"
PYTHON = f"python3-{NAME}"
RUST = f"librust-{NAME}-dev"

MEANS = """Packets go through bounded queues and a tree of schedulers, as a Click
router's link pulls them: priorities, round robin, deficit round robin,
stride scheduling and token buckets."""


@dataclass(frozen=True)
class Package:
    """A package: its name, the patterns of its files, and what its control file says beside the version. {libc} is the least glibc."""

    name: str
    patterns: tuple[str, ...]
    section: str
    title: str
    account: str
    compiled: bool = False
    fields: dict[str, str] = field(default_factory=dict)

    def has(self, path: str) -> bool:
        """Whether a file at this path is the package's."""
        return any(fnmatch(path, it) for it in self.patterns)


PACKAGES = (
    Package(
        NAME,
        ("usr/bin/*", "usr/share/man/man1/*", "usr/share/man/man5/*", "usr/share/bash-completion/*", "usr/share/zsh/*"),
        "net",
        "queues and pull schedulers of a Click router",
        """This package has the program, with completions for bash and zsh. It runs
scripts and traces, and tells what became of each packet.""",
        compiled=True,
        fields={"Depends": "libc6 (>= {libc})", "Suggests": DOCUMENTS},
    ),
    Package(
        LIBRARY,
        (f"usr/lib/*/lib{NAME}.so.{INTERFACE}",),
        "libs",
        "queues and pull schedulers of a Click router - shared library",
        "This package has the shared library.",
        compiled=True,
        fields={"Multi-Arch": "same", "Depends": "libc6 (>= {libc})"},
    ),
    Package(
        DEVELOPING,
        ("usr/include/*", "usr/lib/*/pkgconfig/*", "usr/lib/*/cmake/*", f"usr/lib/*/lib{NAME}.a", f"usr/lib/*/lib{NAME}.so", "usr/share/man/man3/*"),
        "libdevel",
        "queues and pull schedulers of a Click router - headers",
        """This package has what programs in C and C++ are built with: headers, an
archive, manual pages of all calls, and what pkg-config and CMake read.""",
        compiled=True,
        fields={"Multi-Arch": "same", "Depends": f"{LIBRARY} (= {{version}}), libc6-dev", "Suggests": DOCUMENTS},
    ),
    Package(
        PYTHON,
        ("usr/lib/python3/*", f"usr/share/doc/{PYTHON}/*"),
        "python",
        "queues and pull schedulers of a Click router - Python 3",
        """This package has the module for Python, with queues for jobs that threads
and tasks of asyncio share.""",
        fields={"Depends": f"{LIBRARY} (= {{version}}), python3 (>= 3.10)", "Suggests": DOCUMENTS},
    ),
    Package(
        RUST,
        ("usr/share/cargo/*",),
        "rust",
        "queues and pull schedulers of a Click router - Rust source",
        """This package has the sources of the crate for Rust, which needs nothing
beside Rust's own library and the library of this project.""",
        fields={"Depends": f"{DEVELOPING} (= {{version}}), pkg-config", "Suggests": DOCUMENTS},
    ),
    Package(
        DOCUMENTS,
        (f"usr/share/doc/{NAME}/*",),
        "doc",
        "queues and pull schedulers of a Click router - documentation",
        """This package has the pages, the examples, and the tools that draw pictures
of trees and of what happened in them.""",
        fields={"Multi-Arch": "foreign", "Suggests": f"{NAME}, {DEVELOPING}, {PYTHON}, {RUST}, graphviz, python3-matplotlib"},
    ),
)
