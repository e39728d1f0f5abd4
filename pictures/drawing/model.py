"""What is drawn: a router with the tree below each device, the visits of its schedulers, and what a script was answered."""
from dataclasses import dataclass, field

SCHEDULERS = ("PrioSched", "RoundRobinSched", "DRRSched", "StrideSched", "Shaper")
QUEUES = ("Queue", "FrontDropQueue")
CLASSES = ("Sender", *QUEUES, *SCHEDULERS, "ToDevice")


class Wrong(Exception):
    """A file that can't be used: which, and why. The command ends with status 1."""


class WrongWords(Exception):
    """Words that ask for what isn't there. The command ends with status 2."""


@dataclass(frozen=True)
class Element:
    """An element of a tree text, with all its arguments."""

    name: str
    kind: str
    arguments: tuple[str, ...]

    @property
    def numbers(self) -> tuple[int, ...]:
        """Its arguments, of any class but ToDevice."""
        return tuple(int(it) for it in self.arguments)


@dataclass(frozen=True)
class Node:
    """A scheduler, or the link as node 0, by its number in preorder: with the names of what stands at its inputs."""

    device: int
    number: int
    element: Element
    inputs: tuple[str, ...]


@dataclass(frozen=True)
class Router:
    """The plan that a tree text denotes."""

    # its canonical text
    text: str
    elements: dict[str, Element]
    # the name of the queue of each sender, by the sender's number
    queue_of: dict[int, str]
    # the nodes below each device, by number; the device itself is node 0
    devices: tuple[tuple[Node, ...], ...]

    def of_kind(self, *kinds: str) -> list[Element]:
        """The elements of these classes, in order of declaration."""
        return [it for it in self.elements.values() if it.kind in kinds]

    def sender(self, number: int) -> str:
        """The name of the Sender with this number."""
        return next(it.name for it in self.of_kind("Sender") if it.numbers[0] == number)

    def where(self, node: Node) -> str:
        """A node in words: its number, and its device where there are several."""
        return f"node {node.number}" + (f" of device {node.device}" if len(self.devices) > 1 else "")


@dataclass(frozen=True, order=True, slots=True)
class Packet:
    """A packet: packet `number` of its sender, counted from 0. `length` is in bytes."""

    sender: int
    number: int
    length: int = field(compare=False)

    def __str__(self) -> str:
        return f"{self.sender}#{self.number}"


@dataclass(frozen=True, slots=True)
class Visit:
    """A row of the visit file."""

    device: int
    pull: int
    node: int
    input: int
    fresh: bool
    got: Packet | None
    passed: bool
    moment: int


@dataclass(frozen=True)
class Offer:
    """An answer to a `send`: whether the packet was accepted, and which one made room for it."""

    line: int
    packet: Packet
    accepted: bool
    evicted: tuple[int, int] | None


@dataclass(frozen=True)
class Pulled:
    """An answer to a pull: the moment as the script has it, and the packet, if there was one."""

    line: int
    device: int
    moment: int
    got: Packet | None


@dataclass(frozen=True)
class Counts:
    """How many packets were accepted, refused, and evicted, which are some of those accepted."""

    accepted: int = 0
    refused: int = 0
    evicted: int = 0

    def __add__(self, other: "Counts") -> "Counts":
        return Counts(self.accepted + other.accepted, self.refused + other.refused, self.evicted + other.evicted)


@dataclass
class Answer:
    """What a script was answered: offers and pulls by line, and the report, by sender, which a script without a drain lacks."""

    offers: list[Offer] = field(default_factory=list)
    pulls: list[Pulled] = field(default_factory=list)
    report: dict[int, Counts] = field(default_factory=dict)
    # the line of the last offer or pull
    last: int = 0
