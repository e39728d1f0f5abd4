"""Turns a page in Markdown into parts of a manual page. This is Python and no part of what is proved.

It knows what docs/FORMATS.md has: sections, paragraphs, lists, blocks of code, tables, and in a line code, emphasis and links.
"""
import re
from pathlib import Path

from making.manuals import troff

INLINE = re.compile(r"`(?P<code>[^`]+)`|\*\*(?P<bold>[^*]+)\*\*|\*(?P<italic>[^*]+)\*|\[(?P<link>[^\]]+)\]\([^)]*\)")


def inline(text: str) -> str:
    """A text of one line for troff, with code and what is strong in bold, and emphasis in italics."""
    found, end = "", 0
    for it in INLINE.finditer(text):
        found += troff.escaped(text[end : it.start()])
        if it["link"]:
            found += inline(it["link"])
        else:
            font = "I" if it["italic"] else "B"
            found += f"\\f{font}{troff.escaped(it['code'] or it['bold'] or it['italic'])}\\fR"
        end = it.end()
    return found + troff.escaped(text[end:])


def joined(block: str) -> str:
    """The lines of a block as one, for troff."""
    return inline(" ".join(block.split()))


def cells(row: str) -> list[str]:
    """The cells of a row of a table."""
    return [it.strip().replace("\\|", "|") for it in re.split(r"(?<!\\)\|", row.strip().strip("|"))]


def table(block: str) -> str:
    """A table as a list: the first cell of a row is the tag, and where there are more than two columns each other cell has its column's name."""
    head, _, *rows = map(cells, block.splitlines())
    return "".join(troff.item(inline(tag), "\n.br\n".join(entries(head[1:], rest))) for tag, *rest in rows)


def entries(names: list[str], row: list[str]) -> list[str]:
    """What a row says behind its tag, an entry a cell."""
    if len(row) == 1:
        return [inline(row[0])]
    return [f"\\fI{troff.escaped(name)}:\\fR {inline(it)}" for name, it in zip(names, row, strict=True)]


def block_for_troff(block: str) -> str:
    """A block for troff."""
    if block.startswith("```"):
        return troff.as_it_stands("\n".join(block.splitlines()[1:-1]))
    if block.startswith("|"):
        return table(block)
    if block.startswith("- "):
        return "".join(map(troff.point, map(joined, re.split(r"^- ", block, flags=re.MULTILINE)[1:])))
    return troff.paragraph(joined(block))


def blocks(text: str) -> list[str]:
    """The blocks of a text: blank lines part them, but not within code."""
    return [it.strip("\n") for it in re.findall(r"^```.*?^```$|(?:^(?!```)[^\n]+\n?)+", text, re.MULTILINE | re.DOTALL)]


def sections(page: Path) -> dict[str, list[str]]:
    """The blocks of a page under each of its headings. Those before the first one stand under an empty text."""
    begin, *parts = re.split(r"^## (.+)\n", page.read_text().partition("\n")[2], flags=re.MULTILINE)
    return {"": blocks(begin), **{head: blocks(text) for head, text in zip(parts[::2], parts[1::2], strict=True)}}


def body(parts: list[str]) -> str:
    """Blocks for troff, one after the other."""
    return "".join(map(block_for_troff, parts))
