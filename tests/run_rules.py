"""The rules of trees, queues and reports once more, for tests/soak: they are told here by themselves, from what docs/PROGRAM.md and
docs/FORMATS.md say, and nothing of the crates is read.

A run is judged by its tree, the trace, the report and the visit file alone. The log has one thing in it that the rules leave
open: what a queue answered when it was asked. All else in it follows, row by row.
"""
import csv
from dataclasses import dataclass, field


class Broken(Exception):
    """What is wrong with a run."""


def expect(holds, *what):
    if not holds:
        raise Broken(" ".join(str(it) for it in what))


@dataclass
class Queue:
    """A queue, by its number in order of declaration, with the numbers of its senders."""

    number: int
    drops_front: bool
    capacity: int
    senders: list[int]


@dataclass
class Scheduler:
    """A scheduler or a Shaper: its class with its arguments, and what stands at its inputs."""

    name: str
    arguments: list[int]
    inputs: list["Queue | Scheduler"]


@dataclass(frozen=True)
class Packet:
    sender: int
    number: int
    length: int


@dataclass
class Row:
    """A row of the visit file."""

    pull: int
    node: int
    input: int
    fresh: bool
    got: Packet | None
    passed: bool
    moment: int


@dataclass
class Given:
    """What came out at a device, and what each queue below it gave, in order."""

    out: list[Packet] = field(default_factory=list)
    by_queue: dict[int, list[Packet]] = field(default_factory=dict)


def rows_of(path, devices):
    """The rows of a visit file, a list for each device."""
    with open(path, newline="", encoding="ascii") as file:
        lines = csv.reader(file)
        names = ["pull", "node", "input", "fresh", "sender", "number", "length", "passed", "moment"]
        expect(next(lines) == (["device"] if devices > 1 else []) + names, "another header")
        logs = [[] for _ in range(devices)]
        latest = 0
        for line in lines:
            device = int(line.pop(0)) if devices > 1 else 0
            expect(latest <= device < devices, "the rows of device", device, "after those of", latest)
            latest = device
            pull, node, at, fresh, *packet, passed, moment = line
            expect(all(packet) or not any(packet), "half a packet in", line)
            got = Packet(*map(int, packet)) if packet[0] else None
            logs[device].append(Row(int(pull), int(node), int(at), fresh == "1", got, passed == "1", int(moment)))
    return logs


class Order:
    """Inputs that are asked in an order, up to the first that gives a packet: what is kept, and the order at a moment."""

    def __init__(self, scheduler):
        self.count = len(scheduler.inputs)

    def order(self, moment):
        return range(self.count)

    def gave(self, order, place, moment):
        """The input at this place of the order gave a packet."""


class RoundRobin(Order):
    latest = -1

    def order(self, moment):
        return [(self.latest + 1 + it) % self.count for it in range(self.count)]

    def gave(self, order, place, moment):
        self.latest = order[place]


class Stride(Order):
    def __init__(self, scheduler):
        super().__init__(scheduler)
        self.strides = [65_536 // it for it in scheduler.arguments]
        self.passes = [0] * self.count

    def order(self, moment):
        return sorted(range(self.count), key=lambda it: (self.passes[it], it))

    def gave(self, order, place, moment):
        had = self.passes[order[place]]
        self.passes[order[place]] += self.strides[order[place]]
        for it in order[:place]:
            self.passes[it] = had


class Shaper(Order):
    """It asks just while it has a token, of which it has `burst` at first and at most, and gets `rate` a tick."""

    def __init__(self, scheduler):
        super().__init__(scheduler)
        self.rate, self.burst = scheduler.arguments
        self.tokens, self.filled = self.burst, 0

    def order(self, moment):
        self.tokens = min(self.burst, self.tokens + self.rate * (moment - self.filled))
        self.filled = moment
        return [0] if self.tokens else []

    def gave(self, order, place, moment):
        self.tokens -= 1


class Deficit:
    """The heads, what each input may pass yet, and whose turn it is."""

    def __init__(self, scheduler):
        self.quanta = scheduler.arguments
        self.left = [0] * len(self.quanta)
        self.heads = [None] * len(self.quanta)
        self.left[0] = self.quanta[0]
        self.turn = 0

    def settle(self, got):
        """Whether what was got at the input whose turn it is passes. If not, the next has its turn."""
        at = self.turn
        if got is None:
            self.left[at] = 0
        elif got.length <= self.left[at]:
            self.left[at] -= got.length
            self.heads[at] = None
            return True
        else:
            self.heads[at] = got
        self.turn = (at + 1) % len(self.quanta)
        self.left[self.turn] += self.quanta[self.turn]
        return False


KEPT = {"PrioSched": Order, "RoundRobinSched": RoundRobin, "StrideSched": Stride, "Shaper": Shaper, "DRRSched": Deficit}


class Device:
    """A device, which goes through its log: each row has to be the one that the rules ask for."""

    def __init__(self, top, rows):
        self.tree = Scheduler("PrioSched", [], [top])
        self.rows = rows
        self.at = 0
        self.given = Given()
        # The number of each scheduler in preorder, and what it keeps.
        self.number = {}
        self.kept = {}
        self.lay_out(self.tree)

    def lay_out(self, scheduler):
        self.number[id(scheduler)] = len(self.number)
        self.kept[id(scheduler)] = KEPT[scheduler.name](scheduler)
        for it in scheduler.inputs:
            if isinstance(it, Scheduler):
                self.lay_out(it)

    def pulls(self):
        """The moments of its pulls, each of which follows the rules; what came out is kept."""
        moments = []
        while self.at < len(self.rows):
            self.pull, self.moment = len(moments), self.rows[self.at].moment
            expect(not moments or moments[-1] <= self.moment, "the moment falls at pull", self.pull)
            got = self.result(self.tree)
            self.given.out += [got] if got else []
            moments.append(self.moment)
        return moments

    def held(self):
        """How many packets are held as heads."""
        return sum(head is not None for it in self.kept.values() if isinstance(it, Deficit) for head in it.heads)

    def result(self, scheduler):
        """The result of a scheduler in this pull, whose rows come next."""
        kept = self.kept[id(scheduler)]
        return self.looked(scheduler, kept) if isinstance(kept, Deficit) else self.asked(scheduler, kept)

    def asked(self, scheduler, kept):
        order = list(kept.order(self.moment))
        for place, at in enumerate(order):
            got = self.visit(scheduler, at, None, lambda got: got is not None)
            if got:
                kept.gave(order, place, self.moment)
                return got
        return None

    def looked(self, scheduler, kept):
        for _ in scheduler.inputs:
            at = kept.turn
            passed = []

            def settle(got):
                passed.append(kept.settle(got))
                return passed[0]

            got = self.visit(scheduler, at, kept.heads[at], settle)
            if passed[0]:
                return got
        return None

    def visit(self, scheduler, at, head, passes):
        """What a scheduler got at an input: its head there, or what that answered. The next row is this visit."""
        below = scheduler.inputs[at]
        got = head
        if head is None and isinstance(below, Scheduler):
            got = self.result(below)
        expect(self.at < len(self.rows), "the log ends in pull", self.pull)
        row = self.rows[self.at]
        self.at += 1
        if head is None and isinstance(below, Queue):
            got = row.got
            self.given.by_queue.setdefault(below.number, []).extend([got] if got else [])
        expected = Row(self.pull, self.number[id(scheduler)], at, head is None, got, passes(got), self.moment)
        expect(row == expected, "a row is", row, "and not", expected)
        return got


def queues_below(top):
    if isinstance(top, Queue):
        return [top]
    return [it for below in top.inputs for it in queues_below(below)]


def judge_moments(moments, step, limit, emits_last):
    """Pulls once each step, so many at most, and then closing pulls one tick apart, the last of which gives a packet."""
    made = 0
    while made < min(limit, len(moments)) and moments[made] == (made + 1) * step:
        made += 1
    # Of a step of one tick such a pull may be a closing one too, which goes on in the same way.
    closing = [made * step + it for it in range(1, len(moments) - made + 1)]
    expect(moments[made:] == closing, "these are no moments of a run:", moments[:5], "..", moments[made : made + 5], "..", moments[-5:])
    expect(not closing or emits_last, "the last closing pull gives no packet")


def judge_senders(queue, given, sent, report):
    """What became of the packets of a queue's senders."""
    emitted_in_all = 0
    lost = 0
    for sender in queue.senders:
        lengths = sent.get(sender, [])
        mine = [it for it in given if it.sender == sender]
        told = report.pop(sender)
        expect(all(a.number < b.number for a, b in zip(mine, mine[1:])), "sender", sender, "is out of order")
        expect(all(it.number < len(lengths) and lengths[it.number] == it.length for it in mine), "a packet of", sender, "is none that it sent")
        expect(told["sent"] == (len(lengths), sum(lengths)), "of sender", sender, "other packets were sent:", told)
        expect(told["emitted"] == (len(mine), sum(it.length for it in mine)), "of sender", sender, "other packets came out:", told)
        for which in (0, 1):
            accepted, refused, evicted = (told[it][which] for it in ("accepted", "refused", "evicted"))
            expect(accepted + refused == told["sent"][which], "sender", sender, "isn't shared out:", told)
            expect(accepted - evicted == told["emitted"][which], "of sender", sender, "something is lost or made:", told)
            expect((refused if queue.drops_front else evicted) == 0, "its queue does so to nobody:", told)
        emitted_in_all += told["emitted"][0]
        lost += told["refused"][0] + told["evicted"][0]
    expect(all(it.sender in queue.senders for it in given), "queue", queue.number, "gave a packet of another's sender")
    # A queue refuses and evicts only while it is full, and is full after that. So what it then holds comes out.
    expect(lost == 0 or emitted_in_all >= queue.capacity, "queue", queue.number, "lost packets, and emitted fewer than it holds at most")


def report_of(text):
    """The lines of a report, by sender."""
    report = {}
    for line in text.splitlines():
        sender, parts = line.removeprefix("sender ").split(": ")
        expect(int(sender) not in report and list(report) == sorted(report), "the senders aren't in order")
        told = (it.split(" ") for it in parts.split(", "))
        report[int(sender)] = {name: (int(packets), int(size)) for name, packets, size in told}
    return report


def judge_run(tops, trace, step, limit, report, visits):
    """Raises Broken unless this is a run: `tops` stand below the devices, by number, and `trace` has pairs of a sender and a length."""
    sent = {}
    for sender, length in trace:
        sent.setdefault(sender, []).append(length)
    told = report_of(report)
    for top, rows in zip(tops, rows_of(visits, len(tops))):
        device = Device(top, rows)
        moments = device.pulls()
        expect(device.held() == 0, "a packet is held at the end")
        judge_moments(moments, step, limit, bool(rows) and rows[-1].got is not None)
        for queue in queues_below(top):
            given = device.given.by_queue.get(queue.number, [])
            mine = [it for it in device.given.out if it.sender in queue.senders]
            expect(given == mine, "what queue", queue.number, "gave isn't what came out of it")
            judge_senders(queue, given, sent, told)
    expect(not told, "the report has senders that aren't there:", list(told))
