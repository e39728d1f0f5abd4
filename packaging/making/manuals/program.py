"""Makes the manual page of the program from its help. This is Python and no part of what is proved."""
from making.help import Entry, Help, Words
from making.manuals import formats, troff
from making.manuals.troff import escaped

PLACES = """Fair queueing by deficits: M. Shreedhar and G. Varghese, Efficient Fair Queueing using Deficit Round Robin, 1995.
Shares by tickets: C. A. Waldspurger, Lottery and Stride Scheduling, 1995. The elements: E. Kohler and others, The Click Modular Router, 2000."""


def item(entry: Entry) -> str:
    """An entry of a list."""
    said = entry.said[:1].upper() + entry.said[1:]
    return troff.item(f".B {escaped(entry.word)}", escaped(said))


def paragraph(block: str) -> str:
    """A paragraph; a block under a heading stands as it is, after the heading."""
    lines = block.splitlines()
    if lines[0].endswith(":") and all(it.startswith(" ") for it in lines[1:]):
        body = "\n".join(lines[1:])
        return f"{troff.paragraph(escaped(lines[0]))}.PP\n.nf\n{escaped(body)}\n.fi\n"
    return troff.paragraph(escaped(block))


def command(name: str, told: Help) -> str:
    """The part on a command."""
    items = "".join(map(item, [*told.arguments, *told.options]))
    return f".SS {escaped(name)}\n{escaped(told.about)}.\n.PP\n.B {escaped(told.usage)}\n{items}{''.join(map(paragraph, told.more))}"


def manual(words: Words) -> str:
    """The page."""
    top = words.top
    about = top.about[:1].lower() + top.about[1:]
    usages = "\n.br\n".join(f".B {escaped(it.usage)}" for it in [top, *words.commands.values()])
    own = [it for it in top.more if not headed(it)]
    parts = [
        troff.title(words.name, 1, "User Commands"),
        troff.named(words.name, about),
        f".SH SYNOPSIS\n{usages}\n",
        f".SH DESCRIPTION\n{escaped(top.about)}.\n{''.join(map(paragraph, own))}",
        f".SH OPTIONS\n{''.join(map(item, top.options))}",
        ".SH COMMANDS\n" + "".join(command(name, told) for name, told in words.commands.items()),
        *(section(it) for it in top.more if headed(it)),
        formats.for_program(),
        troff.see_also([f"{words.name}(3)", f"{words.name}(5)"]),
        troff.paragraph(escaped(PLACES)),
    ]
    return "".join(parts)


def headed(block: str) -> bool:
    """Whether a block stands under a heading."""
    lines = block.splitlines()
    return lines[0].endswith(":") and len(lines) > 1 and all(it.startswith(" ") for it in lines[1:])


def section(block: str) -> str:
    """A section of its own, of a block under a heading."""
    head, *rest = block.splitlines()
    body = "\n".join(rest)
    return f".SH {head.removesuffix(':').upper()}\n.nf\n{escaped(body)}\n.fi\n"
