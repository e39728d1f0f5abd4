"""Writes manual pages. This is Python and no part of what is proved."""
from making.library import VERSION

MARKS = (("\\", "\\e"), ("-", "\\-"), ("'", "\\(aq"), ("`", "\\(ga"), ("^", "\\(ha"), ("~", "\\(ti"))


def escaped(text: str) -> str:
    """A text for troff, in which a line neither begins a request nor has its marks read as any."""
    for mark, written in MARKS:
        text = text.replace(mark, written)
    return "\n".join(f"\\&{line}" if line.startswith(".") else line for line in text.splitlines())


def title(name: str, section: int, manual: str) -> str:
    """The line that a page begins with."""
    return f'.TH {name.upper()} {section} "" "clickpull {VERSION}" "{manual}"\n'


def named(name: str, account: str) -> str:
    """The section by which whatis and apropos find a page."""
    return f".SH NAME\n{name} \\- {escaped(account)}\n"


def section(head: str, body: str) -> str:
    """A section."""
    return f".SH {escaped(head.upper())}\n{body}"


def paragraph(text: str) -> str:
    """A paragraph of troff."""
    return f".PP\n{text}\n"


def item(tag: str, text: str) -> str:
    """An entry under a tag, both of troff."""
    return f".TP 6\n{tag}\n{text or chr(92) + '&'}\n"


def point(text: str) -> str:
    """An entry of a list, of troff."""
    return f".IP \\(bu 2\n{text}\n"


def as_it_stands(text: str) -> str:
    """A text whose lines and blanks are kept."""
    return f".PP\n.in +4n\n.nf\n{escaped(text)}\n.fi\n.in\n"


def see_also(pages: list[str]) -> str:
    """The section that names other pages, each as name(section)."""
    links = [f".BR {escaped(name)} ({number}" for name, number in (it.split("(") for it in pages)]
    return section("See also", ",\n".join(links) + "\n")
