"""Reads include/clickpull.h: its calls and sections with their comments. This is Python and no part of what is proved."""
import re
from dataclasses import dataclass, field

from making.sources import HEADER

RULE = re.compile(r"^/\* -{20,} (?P<name>[\w ]+?)(?: \*/|\n(?P<text>.*?) \*/)$", re.MULTILINE | re.DOTALL)
# A call with its comment. The exports that are proved, which callers don't use, have no pages.
DECLARED = r"(?:CLK_MUST_USE )?(?:CLK_API|extern) (?P<declared>[\w ]+[ *]clk_(?!router_|raw_)\w+\([^)]*\))(?: \{|;)"
CALL = re.compile(rf"^/\*(?P<text>(?:(?!\*/).)*)\*/\n{DECLARED}$", re.MULTILINE | re.DOTALL)


@dataclass(frozen=True)
class Call:
    """A call: how it is declared, and the blocks of its comment."""

    declared: str
    blocks: list[str]

    @property
    def name(self) -> str:
        """Its name."""
        found = re.search(r"(\w+)\(", self.declared)
        assert found is not None
        return found[1]

    @property
    def account(self) -> str:
        """The first sentence of its comment, for a list."""
        sentence = " ".join(self.blocks[0].split()).partition(". ")[0].removesuffix(".").replace("`", "")
        return sentence[0].lower() + sentence[1:]


@dataclass(frozen=True)
class Section:
    """A section of the header: its name, the blocks of its comment, its text, and its calls."""

    name: str
    blocks: list[str]
    text: str
    calls: list[Call] = field(default_factory=list)


def comment(text: str) -> list[str]:
    """The blocks of a comment, without the star that a line begins with."""
    plain = re.sub(r"^ (?:\* ?)?", "", text, flags=re.MULTILINE)
    return [it.strip("\n").rstrip() for it in re.split(r"\n[ \n]*\n", plain) if it.strip()]


def calls(text: str) -> list[Call]:
    """The calls that a text declares."""
    return [Call(" ".join(it["declared"].split()), comment(it["text"])) for it in CALL.finditer(text)]


def sections() -> list[Section]:
    """All sections. The first has no name, and the comment at the begin of the header."""
    text = HEADER.read_text()
    rules = list(RULE.finditer(text))
    ends = [*(it.start() for it in rules[1:]), len(text)]
    begin = text[: rules[0].start()]
    first = Section("", comment(begin.partition("/*")[2].partition("*/")[0]), begin)
    parts = [(it, text[it.end() : end]) for it, end in zip(rules, ends, strict=True)]
    return [first, *(Section(it["name"], comment(it["text"] or ""), body, calls(body)) for it, body in parts)]


def names() -> list[str]:
    """The names of all calls."""
    return [it.name for section in sections() for it in section.calls]
