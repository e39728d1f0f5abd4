"""Makes manual pages of the comments in include/clickpull.h: one for each call, and one on all. This is Python and no part of what is proved."""
import re

from making.manuals import header, troff
from making.manuals.header import Call, Section
from making.sources import NAME

MANUAL = "Library Functions"
# Where an entry on what a call returns begins, and how a whole block of such entries does.
STATUSES = r"CLK_[A-Z_]+(?:, CLK_[A-Z_]+)*"
ENTRY = re.compile(rf"^({STATUSES})(?: +|\.?$)", re.MULTILINE)
ENTRIES = re.compile(rf"{STATUSES}(?:\.?$| {{2,}})", re.MULTILINE)
MENTIONED = re.compile(r"\bclk_\w+\b")
# The sections of the header whose declarations stand in the page on all.
DECLARATIONS = ("statuses", "values")


def text_of(block: str) -> str:
    """A text for troff on one line, in which code is bold."""
    parts = re.split(r"`([^`]+)`", " ".join(block.split()))
    return "".join(f"\\fB{troff.escaped(it)}\\fR" if place % 2 else troff.escaped(it) for place, it in enumerate(parts))


def statuses(block: str) -> str:
    """What a call returns, an entry for each status."""
    _, *parts = ENTRY.split(block)
    return "".join(troff.item(f"\\fB{it}\\fR", text_of(said)) for it, said in zip(parts[::2], parts[1::2], strict=True))


def block_for_troff(block: str) -> str:
    """A block of a comment for troff."""
    if ENTRIES.match(block):
        return statuses(block)
    if block.startswith("    "):
        return troff.as_it_stands("\n".join(it.removeprefix("    ") for it in block.splitlines()))
    if block.startswith("  - "):
        return "".join(map(troff.point, map(text_of, re.split(r"^  - ", block, flags=re.MULTILINE)[1:])))
    return troff.paragraph(text_of(block))


def body(blocks: list[str]) -> str:
    """Blocks of a comment for troff, one after the other."""
    return "".join(map(block_for_troff, blocks))


def page(call: Call, names: list[str]) -> str:
    """The page of a call, which leads to the calls of these names that its comment mentions."""
    returned = next((place for place, it in enumerate(call.blocks) if ENTRIES.match(it)), len(call.blocks))
    mentioned = set(MENTIONED.findall(" ".join(call.blocks))) & set(names) - {call.name}
    parts = [
        troff.title(call.name, 3, MANUAL),
        troff.named(call.name, call.account),
        troff.section("Synopsis", synopsis([f"{call.declared};"])),
        troff.section("Description", body(call.blocks[:returned])),
    ]
    if call.blocks[returned:]:
        parts.append(troff.section("Return value", body(call.blocks[returned:])))
    return "".join([*parts, troff.see_also([f"{NAME}(3)", *(f"{it}(3)" for it in sorted(mentioned))])])


def synopsis(lines: list[str]) -> str:
    """What a program includes, and what is declared then."""
    return ".nh\n" + "".join(f".PP\n.B {troff.escaped(it)}\n" for it in [f"#include <{NAME}.h>", *lines]) + ".hy\n"


def listed(section: Section) -> str:
    """The calls of a section, each with what it is for."""
    return "".join(troff.item(f"\\fB{it.name}\\fR(3)", troff.escaped(it.account)) for it in section.calls)


def part(section: Section) -> str:
    """What the page on all has of a section."""
    told = troff.as_it_stands(section.text.strip()) if section.name in DECLARATIONS else body(section.blocks) + listed(section)
    return troff.section(section.name, told) if told else ""


def overview(begin: Section, sections: list[Section]) -> str:
    """The page on all."""
    account = begin.blocks[0].partition(": ")[2].removesuffix(".")
    return "".join([
        troff.title(NAME, 3, MANUAL),
        troff.named(NAME, account),
        troff.section("Synopsis", synopsis([])),
        troff.section("Description", body(begin.blocks[1:])),
        *map(part, sections),
        troff.see_also([f"{NAME}(1)", f"{NAME}(5)"]),
    ])


def manuals() -> dict[str, str]:
    """The pages by the names that they are found by."""
    begin, *sections = header.sections()
    names = header.names()
    pages = {it.name: page(it, names) for section in sections for it in section.calls}
    return {NAME: overview(begin, sections), **pages}
