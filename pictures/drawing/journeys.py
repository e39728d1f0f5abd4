"""What became of each packet: joins a script's answer with its visits."""
from collections import defaultdict, deque
from dataclasses import dataclass, field

from drawing.model import Answer, Packet, Pulled, Visit, Wrong


@dataclass
class Journey:
    """The way of one packet. Its moments are lines of the answer, counted from 1; a closing pull that gave nothing has no line,
    and stands half a line before that of the next pull that gave something."""

    packet: Packet
    offered: int
    refused: bool
    evicted: float | None = None
    # where a scheduler held it as a head: from, to, and None where it is held at the end
    held: list[tuple[float, float | None]] = field(default_factory=list)
    linked: float | None = None
    device: int | None = None
    # how many places later than in the order of the offers it came out of its link
    later: int = 0

    @property
    def end(self) -> float | None:
        """Where it ended, or None where it still waits."""
        return self.offered if self.refused else self.evicted if self.evicted is not None else self.linked


def journeys(answer: Answer, visits: list[Visit], path: str) -> list[Journey]:
    """The way of each packet, in the order of the offers."""
    found = {offer.packet: Journey(offer.packet, offer.line, not offer.accepted) for offer in answer.offers}
    for offer in answer.offers:
        if offer.evicted:
            of(found, Packet(*offer.evicted, 0), path).evicted = offer.line
    lines = lines_of_pulls(answer, visits, path)
    for visit in visits:
        if (visit.device, visit.pull) not in lines:
            raise Wrong(f"{path}: pull {visit.pull} has no visit of the link")
        if visit.got and not follow(of(found, visit.got, path), visit, lines[visit.device, visit.pull]):
            raise Wrong(f"{path}: in pull {visit.pull} {visit.got} is looked at as a head, and no scheduler holds it")
    tell_places(list(found.values()))
    return list(found.values())


def of(found: dict[Packet, Journey], packet: Packet, path: str) -> Journey:
    """The way of a packet, which was offered."""
    if packet not in found:
        raise Wrong(f"{path}: it has packet {packet}, which the answer doesn't offer")
    return found[packet]


def follow(journey: Journey, visit: Visit, line: float) -> bool:
    """One visit in which a scheduler, or the link, got the packet. Answers whether it can be."""
    if not visit.fresh and not (journey.held and journey.held[-1][1] is None):
        return False
    if visit.fresh and not visit.passed:
        journey.held.append((line, None))
    elif not visit.fresh and visit.passed:
        journey.held[-1] = (journey.held[-1][0], line)
    if visit.node == 0:
        journey.linked, journey.device = line, visit.device
    return True


def lines_of_pulls(answer: Answer, visits: list[Visit], path: str) -> dict[tuple[int, int], float]:
    """The line of each pull, by device and number: what the link got has to be what the answer says."""
    told: dict[int, deque[Pulled]] = defaultdict(deque)
    for pulled in answer.pulls:
        told[pulled.device].append(pulled)
    lines: dict[tuple[int, int], float] = {}
    for visit in visits:
        if visit.node != 0:
            continue
        line = told[visit.device]
        if visit.got is None and not (line and line[0].got is None):
            # a closing pull that gave nothing
            lines[visit.device, visit.pull] = (line[0].line if line else answer.last + 1) - 0.5
        elif line and line[0].got == visit.got:
            lines[visit.device, visit.pull] = line.popleft().line
        else:
            raise Wrong(f"{path}: pull {visit.pull} gave {visit.got or 'none'}, where the answer says otherwise")
    if any(told.values()):
        raise Wrong(f"{path}: the answer has more pulls")
    return lines


def tell_places(found: list[Journey]) -> None:
    """Tells of each packet that came out how far its place at its link is from that among the offers."""
    for device in {it.device for it in found}:
        out = [it for it in found if it.device == device and it.linked is not None]
        places = {id(it): place for place, it in enumerate(sorted(out, key=lambda it: it.linked or 0))}
        for place, it in enumerate(out):
            it.later = places[id(it)] - place
