"""What checks are, and how they run what they need. It stands outside what is proved."""
import os
import shutil
import subprocess
from collections.abc import Callable, Mapping, Sequence
from dataclasses import dataclass
from pathlib import Path

# How long a command may take, in seconds.
LONGEST = 600


class Failed(Exception):
    """A check doesn't hold. The message says what differs, or gives the command that failed with its output."""


class LeftOut(Exception):
    """A check can't be made on this machine. The message says what is missing."""


@dataclass(frozen=True)
class Machine:
    """Another machine, for which programs are built: what a tool for it is called, and what runs its programs here."""

    tool: Callable[[str], str]
    runner: Sequence[str]


@dataclass(frozen=True)
class Setting:
    """Where things are: the repository, the archive, and a folder for what is made; and the machine for which that is, if it isn't this one."""

    root: Path
    archive: Path
    made: Path
    machine: Machine | None = None

    @property
    def installed(self) -> Path:
        """The archive as it is installed, with the toolchain's heap and the calls of the header."""
        return self.made / "libclickpull.a"

    @property
    def shared(self) -> Path:
        """The shared library."""
        return self.made / "libclickpull.so"

    @property
    def include(self) -> Path:
        """The headers."""
        return self.root / "include"

    def tool(self, name: str) -> str:
        """What a compiler or a tool of it is called. Leaves the check out where it is missing."""
        called = self.machine.tool(name) if self.machine else name
        need(called)
        return called

    def command(self, program: Path) -> list[str | Path]:
        """The command that runs a built program."""
        return [*(self.machine.runner if self.machine else ()), program]

    def run(self, program: Path, *words: str | Path) -> str:
        """What a built program writes."""
        return run([*self.command(program), *words])


@dataclass(frozen=True)
class Check:
    """A check: its name, and what makes it, which answers a detail to tell, or raises."""

    name: str
    run: Callable[[Setting], str]


def need(*programs: str) -> None:
    """Leaves the check out where a program is missing."""
    for it in programs:
        if shutil.which(it) is None:
            raise LeftOut(f"{it} is missing")


def run(command: Sequence[str | Path], environment: Mapping[str, str] | None = None, folder: Path | None = None) -> str:
    """What a command writes to standard output; fails where it ends with another status than 0."""
    words = [str(it) for it in command]
    try:
        done = subprocess.run(
            words, capture_output=True, text=True, errors="replace", cwd=folder, env={**os.environ, **(environment or {})}, timeout=LONGEST
        )
    except subprocess.TimeoutExpired:
        raise Failed(f"{' '.join(words)}\nit takes more than {LONGEST} seconds") from None
    if done.returncode != 0:
        raise Failed(f"{' '.join(words)}\n{done.stdout}{done.stderr}it ended with status {done.returncode}")
    return done.stdout


def compare(what: str, found: object, wanted: object) -> None:
    """Fails where two differ."""
    if found != wanted:
        raise Failed(f"{what}: {found!r}, where it has to be {wanted!r}")
