"""Runs a script over a tree through the module, and prints what `clickpull script TREE SCRIPT` prints: replay.py TREE SCRIPT [RECORD]

With RECORD it also writes the record of what it does, a script that says the same as SCRIPT. It stands outside what is proved: it is there so
that tests can compare the two. A script has to be right.
"""
import sys
from collections.abc import Iterator
from itertools import chain
from pathlib import Path

from clickpull import Account, Departure, Outcome, Packet, Record, Router


def told(packet: Packet) -> str:
    """A packet as lines have it."""
    return f"{packet.sender}#{packet.number} {packet.length}"


def pulled(router: Router, moment: int, device: int, packet: Packet | None) -> str:
    """The line of a pull; where there are several devices it names its own."""
    named = f"{moment} {device}" if router.devices > 1 else f"{moment}"
    return f"pull {named}: {told(packet) if packet else 'none'}"


def sent(router: Router, record: Record, sender: int, length: int) -> str:
    """The line of an offer, which is recorded."""
    it = router.offer(sender, length)
    record.send(it.packet)
    became = "refused" if it.outcome is Outcome.REFUSED else "accepted"
    put_out = f" evicted {it.evicted.sender}#{it.evicted.number}" if it.evicted else ""
    return f"{told(it.packet)} {became}{put_out}"


def closing(router: Router, moment: int, device: int) -> Iterator[Departure]:
    """The closing of a device from this moment on. Where that is later than the counted one, its first pull is made here."""
    first: list[Departure] = []
    if moment > router.moment(device) and router.left(device):
        packet = router.pull(moment + 1, device)
        first = [Departure(moment + 1, packet)] if packet else []
    return chain(first, router.drain(device))


def reported(it: Account) -> str:
    """The line of a sender in the report."""
    parts = (
        ("sent", it.accepted.packets + it.refused.packets, it.accepted.bytes + it.refused.bytes),
        ("accepted", *it.accepted),
        ("refused", *it.refused),
        ("evicted", *it.evicted),
        ("emitted", *it.emitted),
    )
    return f"sender {it.sender}: " + ", ".join(f"{word} {packets} {total}" for word, packets, total in parts)


def drained(router: Router, moment: int) -> Iterator[str]:
    """The lines of a drain: closings by number of the devices, and the report."""
    for device in range(router.devices):
        for it in closing(router, moment, device):
            yield pulled(router, it.moment, device, it.packet)
    yield from map(reported, router.accounts())


def answered(router: Router, record: Record, line: str) -> Iterator[str]:
    """The lines that a line of a script has for an answer. What is done is recorded."""
    match line.split():
        case []:
            return
        case ["send", sender, length]:
            yield sent(router, record, int(sender), int(length))
        case ["pull", moment, *rest]:
            device = int(rest[0]) if rest else 0
            packet = router.pull(int(moment), device)
            record.pulls(device, int(moment))
            yield pulled(router, int(moment), device, packet)
        case ["drain", moment]:
            yield from drained(router, int(moment))
            record.drain(int(moment))
        case _:
            raise ValueError(f"{line!r} is no command")


def main(tree: str, script: str, written: str | None = None) -> None:
    """Prints the answer of a script over a tree, and writes the record to a file that is named."""
    record = Record()
    with Router(Path(tree).read_bytes()) as router:
        for line in Path(script).read_text().splitlines():
            for it in answered(router, record, line):
                print(it)
    if written:
        Path(written).write_bytes(record.text())


def emitted(tree: str, script: str) -> Iterator[Packet]:
    """The packets that a script's pulls emit."""
    with Router(tree) as router:
        for line in script.splitlines():
            match line.split():
                case ["send", sender, length]:
                    router.offer(int(sender), int(length))
                case ["pull", moment, *rest]:
                    if packet := router.pull(int(moment), *map(int, rest)):
                        yield packet


if __name__ == "__main__":
    main(*sys.argv[1:])
