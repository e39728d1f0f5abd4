"""Carries out tests/bindings/cases through the module. It stands outside what is proved.

Cases of live routers are left out: the module has no live routers. A `Dispatcher` has no inlets either.
"""
from collections.abc import Callable, Iterator
from dataclasses import dataclass, field
from functools import partial
from pathlib import Path

from clickpull import AtEnd, BadLength, Error, Outcome, Packet, Record, Router, Shut, TextFault, Total, UnknownDevice, UnknownSender

TABLE = Path(__file__).resolve().parents[2] / "tests" / "bindings" / "cases"

# What the header calls an error of the module.
STATUSES: dict[type[Exception], str] = {
    AtEnd: "AT_END",
    BadLength: "BAD_LENGTH",
    Shut: "SHUT",
    UnknownDevice: "UNKNOWN_DEVICE",
    UnknownSender: "UNKNOWN_SENDER",
    # Of a list, by its index.
    IndexError: "UNKNOWN_QUEUE",
}


@dataclass
class Case:
    """A case: its name, its tree, whether it is of a live router, and its steps, each with its line, its words and its answer."""

    name: str
    tree: str = ""
    is_live: bool = False
    steps: list[tuple[int, list[str], str]] = field(default_factory=list)


def cases() -> list[Case]:
    """The cases of the table."""
    found: list[Case] = []
    for number, line in enumerate(TABLE.read_text().splitlines(), 1):
        word, _, rest = line.partition(" ")
        if not line or line.startswith("#"):
            continue
        if word == "case":
            found.append(Case(rest))
        elif word == "tree":
            found[-1].tree = rest.replace("\\n", "\n")
        elif word == "room" and " -> " not in rest:
            found[-1].is_live = True
        else:
            call, arrow, answer = line.partition(" -> ")
            if not arrow:
                raise ValueError(f"line {number} of the table is no step")
            found[-1].steps.append((number, call.split(" "), answer))
    return found


def told(packet: Packet) -> str:
    """A packet as the table has it."""
    return f"{packet.sender}/{packet.number}/{packet.length}"


class Player:
    """Carries out the steps of a case, each by the method of its name, which returns the answer."""

    def __init__(self, case: Case) -> None:
        self._case = case
        self._router: Router | None = None
        self._record = Record()
        self._record_ended: AtEnd | None = None

    @property
    def router(self) -> Router:
        """The router, which the first step opens."""
        assert self._router is not None, "the case opens no router"
        return self._router

    def answer(self, words: list[str]) -> str:
        """What a step answers."""
        call: Callable[..., str] = getattr(self, words[0])
        try:
            return call(*map(int, words[1:]))
        except (Error, IndexError) as it:
            return f"error {STATUSES[type(it)]}"

    def open(self) -> str:
        try:
            self._router = Router(self._case.tree)
        except TextFault as it:
            return f"fault {it.number} {it.name} {it.offset} {it.line} {it.column}"
        return "ok"

    def shut(self) -> str:
        self.router.close()
        return "ok"

    def offer(self, sender: int, length: int) -> str:
        it = self.router.offer(sender, length)
        self.note(lambda: self._record.send(it.packet))
        if it.evicted:
            return f"evicting {it.packet.number} {' '.join(map(str, (it.evicted.sender, it.evicted.number, it.evicted.length)))}"
        return f"{'refused' if it.outcome is Outcome.REFUSED else 'accepted'} {it.packet.number}"

    def pull(self, device: int, moment: int) -> str:
        it = self.router.pull(moment, device)
        self.note(lambda: self._record.pulls(device, moment))
        return f"packet {it.sender} {it.number} {it.length}" if it else "none"

    def pull_many(self, device: int, moment: int, count: int) -> str:
        packets = self.router.pull_many(moment, count, device)
        self.note(lambda: self._record.pulls(device, moment, min(len(packets) + 1, count)))
        return " ".join(map(told, packets)) or "nothing"

    def drain(self, device: int, pulls: int, count: int) -> str:
        """In pieces of one packet, as the module's iterator drains. The table counts pulls over the whole drain, and the iterator for each."""
        before = self.router.moment(device)
        given = list(self._drained(device, pulls, count))
        for moment in range(before + 1, self.router.moment(device) + 1):
            self.note(partial(self._record.pulls, device, moment))
        return " ".join(["more" if self.router.left(device) else "all", *given])

    def _drained(self, device: int, pulls: int, count: int) -> Iterator[str]:
        left = pulls
        while count and left:
            before = self.router.moment(device)
            try:
                it = next(self.router.drain(device, left), None)
            except AtEnd:
                if left == pulls:
                    raise
                return
            if it is None:
                return
            left -= it.moment - before
            count -= 1
            yield f"{it.moment}:{told(it.packet)}"

    def due(self, device: int) -> str:
        it = self.router.due(device)
        return "none" if it is None else str(it)

    def moment(self, device: int) -> str:
        return str(self.router.moment(device))

    def left(self, device: int) -> str:
        return str(self.router.left(device))

    def account(self, sender: int) -> str:
        it = next((it for it in self.router.accounts() if it.sender == sender), None)
        if it is None:
            raise UnknownSender
        offered = Total(it.accepted.packets + it.refused.packets, it.accepted.bytes + it.refused.bytes)
        totals = {"offered": offered, "accepted": it.accepted, "refused": it.refused, "evicted": it.evicted, "emitted": it.emitted}
        return " ".join(f"{word} {total.packets}/{total.bytes}" for word, total in totals.items())

    def record(self) -> str:
        if self._record_ended:
            raise self._record_ended
        return "; ".join(self._record.text().decode().splitlines()) or "nothing"

    def note(self, add: Callable[[], None]) -> None:
        """Adds lines to the record, up to the first that it can't have."""
        if self._record_ended is None:
            try:
                add()
            except AtEnd as it:
                self._record_ended = it

    def queue(self, number: int) -> str:
        it = self.router.queues()[number]
        return f"{it.capacity} {it.held} {it.device} {int(it.front_drop)}"
