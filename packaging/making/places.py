"""Where packaging/install puts files, so that it can remove them. This is Python and no part of what is proved."""
import shutil
import tempfile
from collections.abc import Iterator
from dataclasses import dataclass
from pathlib import Path

from making.library import INTERFACE
from making.manuals import header
from making.sources import HEADERS, NAME


@dataclass(frozen=True)
class Places:
    """Where things go: the folder before all paths, and the paths below."""

    root: Path
    prefix: Path
    libraries: Path
    zsh: Path

    @property
    def program(self) -> Path:
        """The program."""
        return self.prefix / "bin" / NAME

    def manual(self, name: str, section: int) -> Path:
        """A manual page."""
        return self.prefix / "share" / "man" / f"man{section}" / f"{name}.{section}"

    @property
    def bash_completions(self) -> Path:
        """The completions for bash."""
        return self.prefix / "share" / "bash-completion" / "completions" / NAME

    @property
    def zsh_completions(self) -> Path:
        """The completions for zsh."""
        return self.zsh / f"_{NAME}"

    @property
    def include(self) -> Path:
        """The folder of the headers."""
        return self.prefix / "include"

    @property
    def archive(self) -> Path:
        """The archive."""
        return self.libraries / f"lib{NAME}.a"

    @property
    def shared(self) -> Path:
        """The shared library."""
        return self.libraries / f"lib{NAME}.so.{INTERFACE}"

    @property
    def link(self) -> Path:
        """The link by which a compiler finds the shared library."""
        return self.libraries / f"lib{NAME}.so"

    @property
    def pkg_config(self) -> Path:
        """What pkg-config reads."""
        return self.libraries / "pkgconfig" / f"{NAME}.pc"

    @property
    def cmake(self) -> Path:
        """The folder of what CMake reads."""
        return self.libraries / "cmake" / NAME

    @property
    def cmake_files(self) -> list[Path]:
        """What CMake reads: by what it finds the library, and by what it tells its version."""
        return [self.cmake / f"{NAME}-config.cmake", self.cmake / f"{NAME}-config-version.cmake"]

    def all_of_them(self) -> list[Path]:
        """Each path at which something is installed."""
        of_program = [self.program, self.bash_completions, self.zsh_completions, *(self.manual(NAME, it) for it in (1, 5))]
        of_library = [self.archive, self.shared, self.link, self.pkg_config, *self.cmake_files, *(self.include / it for it in HEADERS)]
        return [*of_program, *of_library, *(self.manual(it, 3) for it in [NAME, *header.names()])]

    def under(self, path: Path) -> Path:
        """A path under the root."""
        return self.root / path.relative_to("/")

    def at(self, path: Path) -> Path:
        """A path under the root, whose folder is made."""
        whole = self.under(path)
        whole.parent.mkdir(parents=True, exist_ok=True)
        return whole

    def put(self, source: Path, path: Path, mode: int = 0o644) -> None:
        """Installs a file, which may be the one that is there."""
        whole = self.at(path)
        with tempfile.TemporaryDirectory(dir=whole.parent) as folder:
            copy = Path(folder) / whole.name
            shutil.copyfile(source, copy)
            copy.chmod(mode)
            copy.replace(whole)

    def write(self, text: str, path: Path) -> None:
        """Installs a text."""
        with tempfile.TemporaryDirectory() as folder:
            made = Path(folder) / path.name
            made.write_text(text)
            self.put(made, path)

    def point(self, path: Path, name: str) -> None:
        """Installs a link to a file beside it."""
        whole = self.at(path)
        whole.unlink(missing_ok=True)
        whole.symlink_to(name)

    def remove(self) -> Iterator[Path]:
        """Removes what is installed, and gives each path at which something was once it is removed. Folders stay."""
        for it in map(self.under, self.all_of_them()):
            if it.is_file() or it.is_symlink():
                it.unlink()
                yield it
