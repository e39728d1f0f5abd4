"""The shares of a DRRSched and of a StrideSched, and the bounds on them that are proved of every run of a tree.

`runs_share_out` of clk_sched proves them. They are `deficit_bound` of SharesByDeficit and `passes_near` of SharesByStride, in
crates/clk_sched/specs/Service.antt, and all is computed here as the definitions there do it, from the visits alone.
"""
from dataclasses import dataclass, field

from drawing.model import Node, Visit

# The greatest length of a packet, in bytes.
MOST_LENGTH = 65_535


@dataclass
class Share:
    """What one input got, in steps: from moment `at` on, up to the next, it has `got`, and has to be from `least` up to `most`.

    `at` counts the pulls of the link; a visit in the midst of a pull has its place between two whole numbers. Where the law
    says nothing, least and most are None.
    """

    at: list[float] = field(default_factory=list)
    got: list[float] = field(default_factory=list)
    least: list[float | None] = field(default_factory=list)
    most: list[float | None] = field(default_factory=list)
    arrivals: int = 0
    # where it got less or more than the law says
    outside: list[tuple[float, float]] = field(default_factory=list)

    def add(self, at: float, got: float, least: float | None, most: float | None) -> None:
        """One more step, which takes the place of one at the same moment."""
        if least is not None and most is not None and not least <= got <= most:
            self.outside.append((at, got))
        if self.at and self.at[-1] == at:
            del self.at[-1], self.got[-1], self.least[-1], self.most[-1]
        self.at.append(at)
        self.got.append(got)
        self.least.append(least)
        self.most.append(most)


def turns_of(node: Node, visits: list[Visit]) -> list[tuple[int, list[Visit]]]:
    """The visits of a node, pull by pull, with the number of the pull."""
    turns: list[tuple[int, list[Visit]]] = []
    for it in visits:
        if (it.device, it.node) == (node.device, node.number):
            if not turns or turns[-1][0] != it.pull:
                turns.append((it.pull, []))
            turns[-1][1].append(it)
    return turns


def shares(node: Node, visits: list[Visit], narrower: int = 0) -> list[Share]:
    """What each input of a DRRSched or a StrideSched got. Tests make the bounds narrower, to see that they are exact."""
    law = deficit_shares if node.element.kind == "DRRSched" else stride_shares
    return law(node, turns_of(node, visits), narrower)


# DRRSched.


def quanta(node: Node) -> list[int]:
    """The quantum of each input, in bytes."""
    given = list(node.element.numbers)
    return given * len(node.inputs) if len(given) == 1 else given


@dataclass
class Spell:
    """What an input got since it was last found empty: bytes passed before, bytes passed since, and arrivals since."""

    before: int = 0
    passed: int = 0
    arrivals: int = 0


def deficit_shares(node: Node, turns: list[tuple[int, list[Visit]]], narrower: int) -> list[Share]:
    """The bytes that each input got. Its deficit, which is its quantum for each arrival less the bytes passed, both since it was
    last found empty, is never below 0, nor above its quantum and a byte less than the greatest length."""
    found = [Share() for _ in node.inputs]
    spells = [Spell() for _ in node.inputs]
    for share in found:
        share.add(0, 0, None, None)
    arrives = True
    for pull, turn in turns:
        for place, visit in enumerate(turn):
            share, spell, quantum = found[visit.input], spells[visit.input], quanta(node)[visit.input]
            spell.arrivals += arrives
            share.arrivals += arrives
            arrives = not visit.passed
            so_far = spell.before + spell.passed
            if visit.got is None:
                spells[visit.input] = Spell(so_far)
                share.add(pull + place / len(turn), so_far, None, None)
                continue
            most = spell.before + quantum * spell.arrivals - narrower
            least = spell.before + quantum * (spell.arrivals - 1) - (MOST_LENGTH - 1) + narrower
            share.add(pull + place / len(turn), so_far, least, most)
            if visit.passed:
                spell.passed += visit.got.length
                share.add(pull + (place + 1) / len(turn), so_far + visit.got.length, least, most)
    return found


# StrideSched.


def strides(node: Node) -> list[int]:
    """The stride of each input: 65,536 over its tickets, rounded down."""
    return [65_536 // it for it in node.element.numbers]


def stride_shares(node: Node, turns: list[tuple[int, list[Visit]]], narrower: int) -> list[Share]:
    """The packets that each input got. Two passes never differ by more than the largest stride: so an input has got about as
    many packets as would bring its pass to that of each other input."""
    found = [Share() for _ in node.inputs]
    by = strides(node)
    passes = [0] * len(by)
    given = [0] * len(by)
    bound = max(by) - narrower

    def note(at: int) -> None:
        for it, share in enumerate(found):
            others = passes[:it] + passes[it + 1 :] or [passes[it]]
            least = given[it] + (max(others) - bound - passes[it]) / by[it]
            most = given[it] + (min(others) + bound - passes[it]) / by[it]
            share.add(at, given[it], least, most)

    note(0)
    for pull, turn in turns:
        winner = next((it.input for it in turn if it.got), None)
        if winner is not None:
            had = passes[winner]
            for it in turn:
                passes[it.input] = had
            passes[winner] += by[winner]
            given[winner] += 1
            note(pull + 1)
    return found
