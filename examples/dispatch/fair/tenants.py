"""Who the tenants of a tree are, and the weights by which they share. It stands outside what is proved."""
import re
from collections.abc import Iterator
from dataclasses import dataclass

COMMENT = re.compile(r"//[^\n]*|/\*.*?\*/", re.DOTALL)
DECLARATION = re.compile(r"([\w\s,]+)::\s*(\w+)\s*(?:\((.*)\))?", re.DOTALL)
PLACE = re.compile(r"(?:\[\s*(\d+)\s*\])?\s*(\w+)\s*(?:\[\s*\d+\s*\])?")

# The quantum of a DRRSched that is declared without one, as docs/FORMATS.md has it.
QUANTUM = 500


@dataclass(frozen=True, slots=True)
class Tenant:
    """A Sender of a tree. If its queue leads to a DRRSched, it shares by size with the other tenants of this scheduler."""

    name: str
    number: int
    scheduler: str | None
    """The DRRSched that its queue leads to, or None."""
    weight: int
    """Its quantum there, or 0."""


@dataclass(slots=True)
class _Element:
    """An element of a tree text, and the element and the input that its output leads to."""

    kind: str
    arguments: list[str]
    target: tuple[str, int] = ("", 0)


def tenants_of(tree: str) -> list[Tenant]:
    """Reads the tenants from a tree text that makes a router. Raises `ValueError` if two of them share a queue."""
    elements: dict[str, _Element] = {}
    statements = [it.strip() for it in COMMENT.sub(" ", tree).split(";")]
    for it in statements:
        if declared := DECLARATION.fullmatch(it):
            elements.update((name, _Element(declared[2], _words(declared[3] or ""))) for name in _words(declared[1]))
    for it in statements:
        for name, target in _connections(it):
            elements[name].target = target
    senders = {name: it for name, it in elements.items() if it.kind == "Sender"}
    if len({it.target[0] for it in senders.values()}) < len(senders):
        raise ValueError("each tenant needs a queue of its own")
    return sorted((_tenant(name, elements) for name in senders), key=lambda it: it.number)


def _words(text: str) -> list[str]:
    """The words that commas separate."""
    return [it.strip() for it in text.split(",") if it.strip()]


def _connections(statement: str) -> Iterator[tuple[str, tuple[str, int]]]:
    """The connections of a chain: an element, and the element and the input that it leads to. A declaration has none."""
    places = [it for it in map(PLACE.fullmatch, map(str.strip, statement.split("->"))) if it]
    for here, there in zip(places, places[1:]):
        yield here[2], (there[2], int(there[1] or 0))


def _tenant(name: str, elements: dict[str, _Element]) -> Tenant:
    number = int(elements[name].arguments[0])
    scheduler, port = elements[elements[name].target[0]].target
    if elements[scheduler].kind != "DRRSched":
        return Tenant(name, number, None, 0)
    quanta = [int(it) for it in elements[scheduler].arguments] or [QUANTUM]
    return Tenant(name, number, scheduler, quanta[port] if len(quanta) > 1 else quanta[0])
