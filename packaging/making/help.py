"""Reads what the program says of its words. This is Python and no part of what is proved.

Help has an account in a line, the usage, lists of commands, arguments and options, and then what else there is to say: paragraphs, and lists
under a heading.
"""
import re
import subprocess
from collections.abc import Sequence
from dataclasses import dataclass, field
from pathlib import Path

LISTS = ("Commands", "Arguments", "Options")


@dataclass(frozen=True)
class Entry:
    """A command, an argument or an option, and what is said of it."""

    word: str
    said: str

    @property
    def names(self) -> list[str]:
        """The names of an option, as `-h` and `--help`."""
        return re.findall(r"(?<!\S)--?[\w-]+", self.word)

    @property
    def value(self) -> str | None:
        """What stands for an option's value, or an argument's name, as FILE."""
        found = re.search(r"<([^>]+)>|^\[([^\]]+)\]$", self.word)
        return found[1] or found[2] if found else None

    @property
    def is_optional(self) -> bool:
        """Whether it is an argument that may be left out, as [TRACE]."""
        return self.word.startswith("[")


@dataclass
class Help:
    """What is said of the program, or of one of its commands."""

    about: str
    usage: str
    lists: dict[str, list[Entry]] = field(default_factory=dict)
    more: list[str] = field(default_factory=list)

    @property
    def commands(self) -> list[Entry]:
        """The commands."""
        return self.lists.get("Commands", [])

    @property
    def arguments(self) -> list[Entry]:
        """The arguments."""
        return self.lists.get("Arguments", [])

    @property
    def options(self) -> list[Entry]:
        """The options."""
        return self.lists.get("Options", [])


class Unreadable(Exception):
    """Help has another form than is known here."""


def entries(block: str) -> list[Entry]:
    """The entries of a list. A line that is further in goes on with the one before."""
    found: list[Entry] = []
    for line in block.splitlines()[1:]:
        parts = re.split(r"\s{2,}", line.strip(), maxsplit=1)
        begins = re.match(r" {2}(?: {4})?\S", line) and (line.strip()[0] in "-<[" or re.match(r" {2}\w", line))
        if begins:
            found.append(Entry(parts[0], parts[1] if len(parts) > 1 else ""))
        elif found:
            found[-1] = Entry(found[-1].word, f"{found[-1].said} {line.strip()}".strip())
        else:
            raise Unreadable(block)
    return found


def read(text: str) -> Help:
    """What a text of help says."""
    blocks = re.split(r"\n{2,}", text.strip("\n"))
    if len(blocks) < 2 or not blocks[1].startswith("Usage: "):
        raise Unreadable(text)
    told = Help(" ".join(blocks[0].split()), blocks[1].removeprefix("Usage: ").strip())
    for block in blocks[2:]:
        head = block.splitlines()[0].removesuffix(":")
        if head in LISTS and head not in told.lists and not told.more:
            told.lists[head] = entries(block)
        else:
            told.more.append(block)
    return told


@dataclass(frozen=True)
class Words:
    """All that the program says of its words."""

    name: str
    version: str
    top: Help
    commands: dict[str, Help]


def words_of(command: Sequence[str | Path]) -> Words:
    """What a program says, which this command runs. Its commands are those that it lists, help aside."""

    def said(*words: str) -> str:
        done = subprocess.run([*command, *words], capture_output=True, text=True, timeout=60, check=True)
        return done.stdout

    name, _, version = said("--version").strip().partition(" ")
    top = read(said("help"))
    return Words(name, version, top, {it.word: read(said("help", it.word)) for it in top.commands if it.word != "help"})
