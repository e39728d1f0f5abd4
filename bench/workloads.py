"""Trees and scripts of the benchmark over trees: each name has a tree text and a function from lines to a script."""
from scripts import LONGEST, SHORTEST, numbers


def over(scheduler, inputs):
    """A scheduler over so many queues, each with a sender."""
    parts = [f"x :: {scheduler}; d :: ToDevice(link); x -> d;"]
    parts += [f"s{i} :: Sender({i}); q{i} :: Queue; s{i} -> q{i} -> [{i}] x;" for i in range(inputs)]
    return "\n".join(parts) + "\n"


def shapers(count):
    """So many Shapers one after another, over one queue."""
    parts = ["s :: Sender(0); q :: Queue; d :: ToDevice(link);"]
    parts += [f"h{i} :: Shaper({1000 + i}, {2000 + i});" for i in range(count)]
    return "\n".join(parts) + "\ns -> q" + "".join(f" -> h{i}" for i in range(count)) + " -> d;\n"


def ladder(count):
    """So many schedulers of three classes one below another, each over a queue and the next."""
    parts = ["d :: ToDevice(link);"]
    for i in range(count):
        scheduler = ("RoundRobinSched", "DRRSched(900)", "StrideSched(2, 3)")[i % 3]
        parts.append(f"x{i} :: {scheduler}; s{i} :: Sender({i}); q{i} :: Queue; s{i} -> q{i} -> [0] x{i};")
    parts += [f"x{i + 1} -> [1] x{i};" for i in range(count - 1)]
    parts.append(f"s :: Sender({count}); q :: Queue; s -> q -> [1] x{count - 1}; x0 -> d;")
    return "\n".join(parts) + "\n"


def mixed(senders):
    """Gives a function from lines to a script: as many sends, of these senders, as pulls, and a drain."""

    def lines(count):
        some, moment = numbers(), 0
        for _ in range(count - 1):
            if next(some) % 2:
                moment += 1
                yield f"pull {moment}\n"
            else:
                length = SHORTEST + next(some) % (LONGEST - SHORTEST + 1)
                yield f"send {senders[next(some) % len(senders)]} {length}\n"
        yield f"drain {moment}\n"

    return lines


def drained(count):
    """A script of sends alone, and a drain: a DRRSched with a quantum of 1 needs a visit for each byte."""
    yield from ("send 0 40\n" for _ in range(count - 1))
    yield "drain 0\n"


TICKETS = ", ".join(str(1 + 37 * i % 400) for i in range(64))

WORKLOADS = {
    "one input": (over("RoundRobinSched", 1), mixed([0])),
    "64 inputs, all busy": (over("RoundRobinSched", 64), mixed(range(64))),
    "64 inputs, two busy": (over("RoundRobinSched", 64), mixed([5, 41])),
    "64 inputs by deficit, all busy": (over("DRRSched(700)", 64), mixed(range(64))),
    "64 inputs by stride, all busy": (over(f"StrideSched({TICKETS})", 64), mixed(range(64))),
    "64 inputs by stride, two busy": (over(f"StrideSched({TICKETS})", 64), mixed([5, 41])),
    "64 Shapers deep": (shapers(64), mixed([0])),
    "60 schedulers deep": (ladder(60), mixed(range(61))),
    "a long drain": (over("DRRSched(1)", 1).replace("Queue;", "Queue(1000000);"), drained),
}
