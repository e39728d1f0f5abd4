"""Makes manual pages of docs/FORMATS.md: that of the formats, and what the program's page has of them.

This is Python and no part of what is proved.
"""
from making.manuals import markdown, troff
from making.sources import NAME, PAGES

FORMATS = PAGES / "FORMATS.md"
ACCOUNT = "texts that the program clickpull reads and writes"


def manual() -> str:
    """The page of the formats."""
    begin, *parts = markdown.sections(FORMATS).items()
    return "".join([
        troff.title(NAME, 5, "File Formats"),
        troff.named(NAME, ACCOUNT),
        troff.section("Description", markdown.body(begin[1])),
        *(troff.section(head, markdown.body(blocks)) for head, blocks in parts),
        troff.see_also([f"{NAME}(1)", f"{NAME}(3)"]),
    ])


def for_program() -> str:
    """What the program's page has: the elements, which formats there are, and the faults."""
    parts = markdown.sections(FORMATS)
    elements = [it for it in parts["Trees"] if it.startswith("|")]
    *names, last = (it.lower() for it in parts if it not in ("", "Faults"))
    told = f"\\fB{NAME}\\fR(5) describes {', '.join(names)} and {last}."
    return "".join([
        troff.section("Elements", markdown.body(elements)),
        troff.section("Formats", told + "\n"),
        troff.section("Faults", markdown.body(parts["Faults"])),
    ])
