"""A model of live routers, by the rules of clickpull.h. It stands outside what is proved."""
import re
from collections import deque
from collections.abc import Callable
from dataclasses import dataclass, field
from typing import Any

from run_rules import KEPT, Deficit, Packet, Queue, Scheduler, queues_below

# Of clickpull.h: statuses, outcomes, and limits.
OK, NONE, SHUT, UNKNOWN_SENDER, UNKNOWN_DEVICE, BAD_LENGTH, AT_END, UNKNOWN_QUEUE = 0, 1, 2, 4, 5, 6, 7, 8
FULL, HANDED_OUT, RECLAIMED = 10, 12, 13
ACCEPTED, REFUSED, EVICTED = 0, 1, 2
MOST_TAKEN, LONGEST, END_OF_MOMENTS = 64, 65_535, 1 << 44

# What stands where a call has filled in no number.
UNFILLED = 7

# Answers of a call: numbers, and packets as live_calls.c prints them.
Answer = list[int | str]

NOBODY = Packet(0, 0, 0)


def trees_of(text: str) -> list[Queue | Scheduler]:
    """What stands below each device of a text as tests/of_library/chance.py makes it: one declaration or connection at a time."""
    declared = re.findall(r"(\w+) :: (\w+)\(?([\d, ]*)\w*\)?;", text)
    wired = {(to, int(port or 0)): start for start, port, to in re.findall(r"(\w+) -> (?:\[(\d+)\] )?(\w+);", text)}
    senders = {(name, int(numbers)) for name, kind, numbers in declared if kind == "Sender"}
    feeds = re.findall(r"(\w+) -> (\w+);", text)
    kinds = {name: (kind, [int(it) for it in numbers.split(",") if it.strip()]) for name, kind, numbers in declared}
    numbers = {name: at for at, name in enumerate(it for it, kind, _ in declared if kind in ("Queue", "FrontDropQueue"))}

    def below(name: str) -> Queue | Scheduler:
        kind, arguments = kinds[name]
        if name in numbers:
            mine = [number for sender, number in senders if (sender, name) in feeds]
            return Queue(numbers[name], kind == "FrontDropQueue", arguments[0], mine)
        inputs = [below(wired[name, port]) for port in range(sum(to == name for to, _ in wired))]
        if kind == "DRRSched" and len(arguments) == 1:
            arguments = arguments * len(inputs)
        return Scheduler(kind, arguments, inputs)

    return [below(wired[name, 0]) for name, kind, _ in declared if kind == "ToDevice"]


class Tree:
    """What stands below a device: pulled by the rules of each scheduler."""

    def __init__(self, top: Queue | Scheduler, held: dict[int, deque[Packet]]):
        self.top, self.held, self.moment = top, held, 0
        self.kept: dict[int, Any] = {}
        self.prepare(top)

    def prepare(self, top: Queue | Scheduler) -> None:
        """Gives each scheduler what it starts with."""
        if isinstance(top, Scheduler):
            self.kept[id(top)] = KEPT[top.name](top)
            for it in top.inputs:
                self.prepare(it)

    def pull(self, moment: int) -> Packet | None:
        """What a pull at this moment emits."""
        self.moment = max(self.moment, moment)
        return self.result(self.top)

    def result(self, top: Queue | Scheduler) -> Packet | None:
        """What a queue or a scheduler gives when it is asked."""
        if isinstance(top, Queue):
            return self.held[top.number].popleft() if self.held[top.number] else None
        kept = self.kept[id(top)]
        if isinstance(kept, Deficit):
            for _ in top.inputs:
                at = kept.turn
                got = kept.heads[at] or self.result(top.inputs[at])
                if kept.settle(got):
                    return got
            return None
        order = list(kept.order(self.moment))
        for place, at in enumerate(order):
            if got := self.result(top.inputs[at]):
                kept.gave(order, place, self.moment)
                return got
        return None


@dataclass
class Line:
    """A sender: its queue, its inlet, and what became of its packets, by the words of an account."""

    number: int
    queue: Queue
    device: int
    waiting: deque[tuple[int, int] | None] = field(default_factory=deque)
    accepted_by_inlet: int = 0
    taken: int = 0
    is_handed_out: bool = False
    is_open: bool = False
    has_ended: bool = False
    account: dict[str, list[int]] = field(default_factory=lambda: {it: [0, 0] for it in ("accepted", "refused", "evicted", "emitted")})

    def note(self, word: str, packet: Packet) -> None:
        """Counts a packet."""
        self.account[word][0] += 1
        self.account[word][1] += packet.length


class Model:
    """A live router and its inlets. Each call has a method, which returns what the call does."""

    def __init__(self, text: str, room: int):
        tops = trees_of(text)
        queues = sorted(((queue, device) for device, top in enumerate(tops) for queue in queues_below(top)), key=lambda it: it[0].number)
        self.room, self.turn, self.state = room, 0, OK
        self.queues = queues
        self.held: dict[int, deque[Packet]] = {queue.number: deque() for queue, _ in queues}
        # All packets inside, in the order in which each queue accepted them, with their tokens.
        self.inside: dict[int, dict[Packet, int]] = {queue.number: {} for queue, _ in queues}
        self.trees = [Tree(top, self.held) for top in tops]
        lines = [Line(sender, queue, device) for queue, device in queues for sender in queue.senders]
        self.lines = sorted(lines, key=lambda it: it.number)
        self.by_number = {it.number: it for it in lines}
        self.reclaimed: deque[int] = deque()

    # Inlets.

    def inlet(self, sender: int) -> Answer:
        """Hands out a sender's inlet."""
        if self.state != OK:
            return [self.state, 0]
        line = self.by_number.get(sender)
        if line is None:
            return [UNKNOWN_SENDER, 0]
        if line.is_handed_out:
            return [HANDED_OUT, 0]
        line.is_handed_out = line.is_open = True
        return [OK, 1]

    def refusal(self, sender: int, length: int) -> int:
        """Why an offer is refused, or OK."""
        line = self.by_number.get(sender)
        if line is None or not line.is_open:
            return SHUT
        if not 1 <= length <= LONGEST:
            return BAD_LENGTH
        return FULL if len(line.waiting) == self.room else OK

    def put(self, sender: int, length: int, token: int) -> None:
        """Has a packet wait in an inlet that has room."""
        line = self.by_number[sender]
        line.waiting.append((length, token))
        line.accepted_by_inlet += 1

    def offer(self, sender: int, length: int, token: int) -> Answer:
        """Offers a packet, and returns its number."""
        status = self.refusal(sender, length)
        if status != OK:
            return [status, UNFILLED]
        self.put(sender, length, token)
        return [OK, self.by_number[sender].accepted_by_inlet - 1]

    def offer_many(self, sender: int, count: int, *items: int) -> Answer:
        """Offers packets up to the first that is refused."""
        if self.refusal(sender, 1) == SHUT:
            return [SHUT, 0]
        for done in range(count):
            length, token = items[2 * done], items[2 * done + 1]
            status = self.refusal(sender, length)
            if status != OK:
                return [status, done]
            self.put(sender, length, token)
        return [OK, count]

    def room_of(self, sender: int) -> Answer:
        """How many packets fit."""
        if self.refusal(sender, 1) == SHUT:
            return [SHUT, UNFILLED]
        return [OK, self.room - len(self.by_number[sender].waiting)]

    def close(self, sender: int) -> Answer:
        """Closes an inlet."""
        if self.refusal(sender, 1) == SHUT:
            return [SHUT]
        self.by_number[sender].is_open = False
        self.by_number[sender].waiting.append(None)
        return [OK]

    # Takes.

    def take_one(self, line: Line) -> Answer | None:
        """Takes a sender's next packet, and offers it to its queue. At the end of its packets it takes that, and returns none."""
        if not line.waiting:
            return None
        item = line.waiting.popleft()
        if item is None:
            line.has_ended = True
            return None
        length, token = item
        packet = Packet(line.number, line.taken, length)
        line.taken += 1
        held, inside = self.held[line.queue.number], self.inside[line.queue.number]
        is_full = len(held) == line.queue.capacity
        if is_full and not line.queue.drops_front:
            line.note("refused", packet)
            return [shown(packet, token), REFUSED, shown(NOBODY, 0)]
        evicted, evicted_token = NOBODY, 0
        if is_full:
            evicted = held.popleft()
            evicted_token = inside.pop(evicted)
            self.by_number[evicted.sender].note("evicted", evicted)
        held.append(packet)
        inside[packet] = token
        line.note("accepted", packet)
        return [shown(packet, token), EVICTED if is_full else ACCEPTED, shown(evicted, evicted_token)]

    def take(self, sender: int, count: int) -> Answer:
        """Takes packets of one sender."""
        if self.state != OK:
            return [self.state, 0]
        line = self.by_number.get(sender)
        if line is None:
            return [UNKNOWN_SENDER, 0]
        taken: list[Answer] = []
        while len(taken) < min(count, MOST_TAKEN) and (one := self.take_one(line)):
            taken.append(one)
        return given(taken, count)

    def take_in(self, each: int, count: int, only_fitting: bool = False) -> Answer:
        """Takes packets in one round over the senders. If it fills all places, the next one starts after the last packet's sender.

        Otherwise, if this one took a packet, the next one starts one sender later.
        """
        if self.state != OK:
            return [self.state, 0]
        taken: list[Answer] = []
        most = min(count, MOST_TAKEN)
        for _ in self.lines:
            if len(taken) == most:
                break
            line = self.lines[self.turn]
            for _ in range(min(each, most - len(taken))):
                if only_fitting and len(self.held[line.queue.number]) == line.queue.capacity:
                    break
                one = self.take_one(line)
                if one is None:
                    break
                taken.append(one)
            self.turn = (self.turn + 1) % len(self.lines)
        if 0 < len(taken) < most:
            self.turn = (self.turn + 1) % max(len(self.lines), 1)
        return given(taken, count)

    def take_what_fits(self, each: int, count: int) -> Answer:
        """The same, but leaves packets in their inlets while their queue is full."""
        return self.take_in(each, count, True)

    # Pulls.

    def refused_pull(self, device: int, moment: int) -> int:
        """Why a pull can't be made, or OK."""
        if self.state != OK:
            return self.state
        if device >= len(self.trees):
            return UNKNOWN_DEVICE
        return OK if max(moment, self.trees[device].moment) < END_OF_MOMENTS and moment < END_OF_MOMENTS else AT_END

    def emit(self, device: int, moment: int) -> str | None:
        """Pulls a device, and counts what is emitted."""
        packet = self.trees[device].pull(moment)
        if packet is None:
            return None
        line = self.by_number[packet.sender]
        line.note("emitted", packet)
        return shown(packet, self.inside[line.queue.number].pop(packet))

    def pull(self, device: int, moment: int) -> Answer:
        """Pulls a device once."""
        status = self.refused_pull(device, moment)
        if status != OK:
            return [status, 0]
        one = self.emit(device, moment)
        return [OK, 1, one] if one else [NONE, 0]

    def pull_many(self, device: int, moment: int, count: int) -> Answer:
        """Pulls a device until it emits none."""
        status = self.refused_pull(device, moment)
        if status != OK:
            return [status, 0]
        emitted: list[Answer] = []
        while len(emitted) < count and (one := self.emit(device, moment)):
            emitted.append([one])
        return given(emitted, count)

    def left_for(self, device: int) -> int:
        """How many packets are inside for a device."""
        return sum(len(self.inside[queue.number]) for queue, at in self.queues if at == device)

    def drain(self, device: int, count: int, pulls: int) -> Answer:
        """Pulls a device one tick apart until nothing is left, or a limit is reached."""
        status = self.refused_pull(device, 0)
        departed: Answer = []
        while status == OK and self.left_for(device) > 0:
            moment = self.trees[device].moment + 1
            if len(departed) // 2 == count or pulls == 0:
                status = NONE
            elif moment == END_OF_MOMENTS:
                status = AT_END
            else:
                pulls -= 1
                if one := self.emit(device, moment):
                    departed += [moment, one]
        return [status, len(departed) // 2, *departed]

    # What is told.

    def ended(self) -> Answer:
        """Whether each inlet's end was taken."""
        return [self.state or (OK if all(it.has_ended for it in self.lines) else NONE)]

    def drained(self) -> Answer:
        """Whether no packet is inside."""
        return [self.state or (NONE if any(self.inside.values()) else OK)]

    def told_of(self, device: int, value: Callable[[], int]) -> Answer:
        """A number that is told of a device."""
        if self.state != OK:
            return [self.state, UNFILLED]
        return [OK, value()] if device < len(self.trees) else [UNKNOWN_DEVICE, UNFILLED]

    def moment(self, device: int) -> Answer:
        """The latest moment of a device."""
        return self.told_of(device, lambda: self.trees[device].moment)

    def left(self, device: int) -> Answer:
        """How many packets are left for a device."""
        return self.told_of(device, lambda: self.left_for(device))

    def account(self, place: int) -> Answer:
        """What became of the packets of the sender at a place."""
        if self.state != OK:
            return [self.state]
        if place >= len(self.lines):
            return [UNKNOWN_SENDER]
        line = self.lines[place]
        return [OK, line.number, line.queue.number, *(it for total in line.account.values() for it in total)]

    def queue(self, number: int) -> Answer:
        """A queue: its capacity, what it holds, its device and its kind."""
        if self.state != OK:
            return [self.state]
        if number >= len(self.queues):
            return [UNKNOWN_QUEUE]
        queue, device = self.queues[number]
        return [OK, queue.capacity, len(self.held[number]), device, int(queue.drops_front)]

    def counts(self) -> Answer:
        """How many senders, queues and devices there are."""
        return [0, 0, 0] if self.state != OK else [len(self.lines), len(self.queues), len(self.trees)]

    # The end.

    def reclaim(self, count: int) -> Answer:
        """Gives the router up, and returns the next tokens of packets inside."""
        if self.state == SHUT:
            return [SHUT, 0]
        if self.state == OK:
            self.reclaimed.extend(token for queue, _ in self.queues for token in self.inside[queue.number].values())
        self.state = RECLAIMED
        tokens = [self.reclaimed.popleft() for _ in range(min(count, len(self.reclaimed)))]
        return [OK if len(tokens) < count else NONE, len(tokens), *tokens]

    def shut(self) -> Answer:
        """Closes the router."""
        self.state = SHUT
        return [1]

    def carry_out(self, line: str) -> str:
        """What the program prints of a line."""
        word, *numbers = line.split()
        call = getattr(self, {"room": "room_of"}.get(word, word))
        return " ".join(map(str, [word, *call(*map(int, numbers))]))


def shown(packet: Packet, token: int) -> str:
    """A packet as the program prints it."""
    return f"{packet.sender}#{packet.number} {packet.length} {token}"


def given(filled: list[Answer], count: int) -> Answer:
    """What a call for up to `count` packets returns and fills in."""
    return [NONE if count and not filled else OK, len(filled), *(it for one in filled for it in one)]
