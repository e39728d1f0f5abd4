"""Reads the program's own files: canonical tree texts, visits, and the answers of scripts and runs."""
import csv
import re
import sys
import tempfile
from collections.abc import Iterator

from drawing import program
from drawing.model import CLASSES, QUEUES, SCHEDULERS, Answer, Counts, Element, Node, Offer, Packet, Pulled, Router, Visit, Wrong
from drawing.progress import counted

ELEMENT = re.compile(r"(\w+) :: (\w+)(?:\(([^()]*)\))?;")
CONNECTION = re.compile(r"(\w+) \[0\] -> \[(\d{1,15})\] (\w+);")
OFFER = re.compile(r"(\d{1,15})#(\d{1,15}) (\d{1,15}) (accepted|refused)(?: evicted (\d{1,15})#(\d{1,15}))?")
PULLED = re.compile(r"pull (\d{1,15})(?: (\d{1,15}))?: (?:none|(\d{1,15})#(\d{1,15}) (\d{1,15}))")
TALLY = re.compile(r"sender (\d{1,15}): sent \d{1,15} \d{1,15}, accepted (\d{1,15}) \d{1,15}, refused (\d{1,15}) \d{1,15}, evicted (\d{1,15}) \d{1,15}, emitted \d{1,15} \d{1,15}")
# how many arguments a canonical text has of each class; of the others there is one at least
ARGUMENTS = {"Sender": 1, "Queue": 1, "FrontDropQueue": 1, "PrioSched": 0, "RoundRobinSched": 0, "Shaper": 2, "ToDevice": 1}
COLUMNS = ["pull", "node", "input", "fresh", "sender", "number", "length", "passed", "moment"]
# the word that stands for standard input
STDIN = "-"


def text_of(path: str) -> str:
    """What is in a file."""
    try:
        with open(path, encoding="utf-8", newline="") as file:
            return file.read()
    except OSError as it:
        raise Wrong(f"{path}: {it.strerror}") from None
    except UnicodeDecodeError:
        raise Wrong(f"{path}: it isn't a text") from None


def is_number(word: str) -> bool:
    """Whether a word is a number in digits."""
    return word.isascii() and word.isdigit() and len(word) <= 15


def numbers(words: list[str]) -> list[int]:
    """The numbers that words are."""
    if not all(map(is_number, words)):
        raise ValueError
    return list(map(int, words))


# Trees.


def tree(path: str) -> Router:
    """The plan of a tree text, which - reads from standard input. The program brings it to canonical form; where there is none, it has to
    be in that already."""
    if path == STDIN:
        return tree_of("standard input", from_stdin())
    text = text_of(path)
    return router(path, program.answer(path, "check", path)) if program.is_there() else canonical_tree(path, text)


def tree_of(name: str, text: str) -> Router:
    """The plan of a tree text that is in no file. The program reads it from a temporary one."""
    if not program.is_there():
        return canonical_tree(name, text)
    with tempfile.NamedTemporaryFile("w", suffix=".click", encoding="utf-8", newline="") as file:
        file.write(text)
        file.flush()
        return router(name, program.answer(name, "check", file.name))


def from_stdin() -> str:
    """What is on standard input."""
    if sys.stdin is None:
        raise Wrong("standard input: it is closed")
    try:
        return sys.stdin.buffer.read().decode("utf-8")
    except OSError as it:
        raise Wrong(f"standard input: {it.strerror}") from None
    except UnicodeDecodeError:
        raise Wrong("standard input: it isn't a text") from None


def canonical_tree(path: str, text: str) -> Router:
    """The plan of a tree text where there is no program."""
    try:
        return router(path, text)
    except Wrong as it:
        raise Wrong(f"{it} (there is no clickpull on the PATH, so that it has to be a tree's canonical text)") from None


def router(path: str, canonical: str) -> Router:
    """The plan of a canonical text."""
    elements: dict[str, Element] = {}
    inputs: dict[str, dict[int, list[str]]] = {}
    for number, line in enumerate(canonical.splitlines(), 1):
        if declared := element(line):
            elements[declared.name] = declared
        elif (it := CONNECTION.fullmatch(line)) and it[1] in elements and it[3] in elements:
            inputs.setdefault(it[3], {}).setdefault(int(it[2]), []).append(it[1])
        else:
            raise Wrong(f"{path}: line {number} is neither an element nor a connection")
    by_port = {target: tuple(ports[port][0] for port in sorted(ports)) for target, ports in inputs.items()}
    tops = [it for it in elements.values() if it.kind == "ToDevice"]
    try:
        devices = tuple(tuple(below(it, device, elements, by_port)) for device, it in enumerate(tops))
        queue_of = {elements[sender].numbers[0]: queue for queue, ports in inputs.items() if elements[queue].kind in QUEUES for sender in ports[0]}
    except (KeyError, ValueError, IndexError, RecursionError):
        raise Wrong(f"{path}: its connections make no tree") from None
    if not tops:
        raise Wrong(f"{path}: there is no ToDevice")
    if len(queue_of) != sum(it.kind == "Sender" for it in elements.values()):
        raise Wrong(f"{path}: each Sender has to push into a queue")
    return Router(canonical, elements, queue_of, devices)


def element(line: str) -> Element | None:
    """The element that a line declares, if it does."""
    it = ELEMENT.fullmatch(line)
    if not it or it[2] not in CLASSES:
        return None
    arguments = tuple(it[3].split(", ")) if it[3] else ()
    if len(arguments) != ARGUMENTS.get(it[2], len(arguments) or 1):
        return None
    is_right = it[2] == "ToDevice" or all(is_number(word) and (int(word) > 0 or it[2] == "Sender") for word in arguments)
    return Element(it[1], it[2], arguments) if is_right else None


def below(top: Element, device: int, elements: dict[str, Element], by_port: dict[str, tuple[str, ...]]) -> list[Node]:
    """The nodes from this one on in preorder, the device itself being node 0."""
    nodes: list[Node] = []

    def lay_out(element: Element) -> None:
        inputs = by_port[element.name]
        if element.kind == "StrideSched" or element.kind == "DRRSched" and len(element.arguments) > 1:
            if len(inputs) != len(element.arguments):
                raise ValueError
        nodes.append(Node(device, len(nodes), element, inputs))
        for it in inputs:
            if elements[it].kind in SCHEDULERS:
                lay_out(elements[it])

    lay_out(top)
    return nodes


# Visits.


def visits(path: str, router: Router | None = None) -> list[Visit]:
    """The rows of a visit file. Where there is a router, each is of a node and an input that it has."""
    rows = csv.reader(text_of(path).splitlines())
    try:
        header = next(rows, None)
        if header not in (COLUMNS, ["device", *COLUMNS]):
            raise Wrong(f"{path}: its first line isn't the header of a visit file")
        found = list(counted(visits_of(path, rows, len(header) > len(COLUMNS)), "visits"))
    except csv.Error as it:
        raise Wrong(f"{path}: line {rows.line_num}: {it}") from None
    for line, visit in enumerate(found if router else (), 2):
        if router and not has(router, visit):
            raise Wrong(f"{path}: line {line} is of a device, a node or an input that the tree doesn't have")
    return found


def has(router: Router, visit: Visit) -> bool:
    """Whether the router has the input that was looked at."""
    nodes = router.devices[visit.device] if visit.device < len(router.devices) else ()
    return visit.node < len(nodes) and visit.input < len(nodes[visit.node].inputs)


def visits_of(path: str, rows: Iterator[list[str]], several: bool) -> Iterator[Visit]:
    """The visits that the rows after the header are, which have a device where there are several."""
    columns = len(COLUMNS) + several
    for line, row in enumerate(rows, 2):
        try:
            device, pull, node, at, fresh = numbers(row[:5] if several else ["0", *row[:4]])
            *packet, passed, moment = row[-5:]
            got = Packet(*numbers(packet)) if any(packet) else None
            passes, when = numbers([passed, moment])
            if len(row) != columns:
                raise ValueError
            yield Visit(device, pull, node, at, bool(fresh), got, bool(passes), when)
        except (ValueError, TypeError):
            raise Wrong(f"{path}: line {line} is no visit") from None


# Answers.


def answer(path: str) -> Answer:
    """What a script was answered, from a file."""
    return answer_of(path, text_of(path))


def answer_of(path: str, text: str) -> Answer:
    """What a script was answered. The answer of a run is its report alone."""
    found = Answer()
    for line, words in enumerate(counted(text.splitlines(), "lines"), 1):
        if not words.startswith("sender "):
            found.last = line
        if it := OFFER.fullmatch(words):
            evicted = (int(it[5]), int(it[6])) if it[5] else None
            found.offers.append(Offer(line, Packet(int(it[1]), int(it[2]), int(it[3])), it[4] == "accepted", evicted))
        elif it := PULLED.fullmatch(words):
            got = Packet(int(it[3]), int(it[4]), int(it[5])) if it[3] else None
            found.pulls.append(Pulled(line, int(it[2] or 0), int(it[1]), got))
        elif it := TALLY.fullmatch(words):
            found.report[int(it[1])] = Counts(int(it[2]), int(it[3]), int(it[4]))
        else:
            raise Wrong(f"{path}: line {line} is none of an answer: {words}")
    return found


def report(path: str, router: Router) -> dict[str, Counts]:
    """What each queue took, refused and evicted, by its name, of the report that ends an answer."""
    by_sender = answer(path).report
    if not by_sender:
        raise Wrong(f"{path}: it has no report, which stands at the end of a run, or of a script that ends with drain")
    if set(by_sender) != set(router.queue_of):
        raise Wrong(f"{path}: it is the report of other senders than those of the tree")
    counts = {it.name: Counts() for it in router.of_kind(*QUEUES)}
    for sender, of_sender in by_sender.items():
        counts[router.queue_of[sender]] += of_sender
    return counts
