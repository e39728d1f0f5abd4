"""Calls on live routers by chance, beside the model of them, and the records of these calls. It stands outside what is proved."""
import random
from collections.abc import Callable, Iterator
from concurrent.futures import ThreadPoolExecutor
from functools import partial
from pathlib import Path

from of_library.again import Program, is_done_again
from of_library.chance import clickpull, tree_and_script
from of_library.checks import Check, Failed, Setting, compare, run
from of_library.compiled import ANY_LEAK, C, has_valgrind, program_of
from of_library.model import END_OF_MOMENTS, LONGEST, Model
from of_library.replayed import replayer

# How many trees are tried unless more are asked for, and how many characters of a line are told if it is wrong.
TREES, TOLD = 60, 500

# How many scripts run under valgrind too.
CHECKED = 4


def number_of(chance: random.Random, known: list[int]) -> int:
    """A number that is known, and now and then another."""
    return chance.choice(known) if known and chance.random() < 0.97 else chance.choice([0, 3, 600, 65_535])


def items(chance: random.Random, count: int) -> str:
    """Lengths and tokens of packets."""
    lengths = [chance.choice([1, 40, 500, 1500, 1500, LONGEST]) for _ in range(count)]
    if count and chance.random() < 0.1:
        lengths[chance.randrange(count)] = chance.choice([0, LONGEST + 1, 1 << 17, (1 << 32) - 1])
    return " ".join(f"{length} {chance.getrandbits(64)}" for length in lengths)


class Maker:
    """Makes lines of calls for a router with these senders and so many queues and devices."""

    def __init__(self, chance: random.Random, model: Model):
        self.chance = chance
        self.senders = [it.number for it in model.lines]
        self.queues = list(range(len(model.queues)))
        self.devices = list(range(len(model.trees)))
        self.moment = 0
        # In some scripts inlets stay open, routers stay whole, and moments stay low.
        self.rare = chance.choice([0, 0, 0.01, 0.05])

    def call(self) -> str:
        """A call."""
        chance = self.chance
        if chance.random() < self.rare:
            return self.rare_call()
        return chance.choices([self.of_inlet, self.of_take, self.of_pull, self.of_look], [5, 3, 3, 1])[0]()

    def of_inlet(self) -> str:
        """A call on an inlet."""
        chance, sender = self.chance, number_of(self.chance, self.senders)
        if chance.random() < 0.3:
            count = chance.choice([0, 1, 3, 10, 64, 65, 90])
            return f"offer_many {sender} {count} {items(chance, count)}".strip()
        return f"offer {sender} {items(chance, 1)}" if chance.random() < 0.9 else f"room {sender}"

    def of_take(self) -> str:
        """A call that takes."""
        chance, count = self.chance, self.chance.choice([0, 1, 1, 2, 5, 63, 64, 65, 100])
        if chance.random() < 0.3:
            return f"take {number_of(chance, self.senders)} {count}"
        return f"{chance.choice(['take_in', 'take_what_fits'])} {chance.choice([0, 1, 1, 2, 5, 64, 200])} {count}"

    def of_pull(self) -> str:
        """A call that pulls or drains."""
        chance, device = self.chance, number_of(self.chance, self.devices)
        self.moment = max(0, self.moment + chance.choice([-3, 0, 0, 0, 1, 1, 2, 30]))
        if chance.random() < 0.1:
            return f"drain {device} {chance.choice([0, 1, 4, 100])} {chance.choice([0, 1, 3, 50])}"
        if chance.random() < 0.5:
            return f"pull_many {device} {self.moment} {chance.choice([0, 1, 2, 5, 20, 100])}"
        return f"pull {device} {self.moment}"

    def of_look(self) -> str:
        """A call that changes nothing."""
        chance = self.chance
        word = chance.choice(["ended", "drained", "moment", "left", "account", "queue", "counts"])
        if word in ("moment", "left"):
            return f"{word} {number_of(chance, self.devices)}"
        known = {"account": list(range(len(self.senders))), "queue": self.queues}.get(word)
        return word if known is None else f"{word} {number_of(chance, known)}"

    def rare_call(self) -> str:
        """A call that changes what later calls can do."""
        chance = self.chance
        sender = number_of(chance, self.senders)
        moment = chance.choice([END_OF_MOMENTS - 1, END_OF_MOMENTS, END_OF_MOMENTS + 1, (1 << 64) - 1])
        calls = [f"close {sender}", f"inlet {sender}", f"pull 0 {moment}", f"reclaim {chance.choice([0, 1, 3, 100])}", "shut"]
        return chance.choices(calls, [20, 10, 2, 1, 1])[0]

    def lines(self) -> Iterator[str]:
        """The lines of a script: inlets are handed out, calls are made, and then, in most scripts, the router comes to its end."""
        chance = self.chance
        for sender in self.senders:
            if chance.random() < 0.9:
                yield f"inlet {sender}"
        for _ in range(chance.choice([5, 40, 150])):
            yield self.call()
        if chance.random() < 0.3:
            yield from (f"reclaim {it}" for it in chance.choice([(), (0, 1, 2, 50, 100), (100, 100)]))
            return
        if chance.random() < 0.2:
            yield from (f"pull 0 {END_OF_MOMENTS + it}" for it in (0, -1, 0))
        yield from (f"close {it}" for it in self.senders if chance.random() < 0.95)
        for _ in range(chance.choice([1, 5, 20])):
            yield f"take_in {chance.choice([1, 64])} 64"
        yield "ended"
        yield from (f"drain {it} 100 1000" for it in self.devices)
        yield "drained"
        yield from (f"account {it}" for it in range(len(self.senders)))
        yield from (f"reclaim {it}" for it in chance.choice([(), (2, 2, 100), (100,)]))


def script_of(seed: str) -> tuple[str, int, list[str], str]:
    """A tree, the room of its inlets, calls, and what these print."""
    chance = random.Random(seed)
    tree = tree_and_script(chance)[0]
    room = chance.choice([1, 1, 2, 3, 7, 64, 200])
    model = Model(tree, room)
    calls = list(Maker(chance, model).lines())
    return tree, room, calls, "".join(f"{model.carry_out(it)}\n" for it in calls)


def built(setting: Setting) -> Path:
    """The program that makes calls."""
    return program_of(setting, "cc", [*C, setting.root / "tests" / "c" / "live_calls.c"], "live-calls")


def compared(program: Program, programs: list[Program], folder: Path, seed: int, checked: int, number: int) -> int:
    """Compares what the calls of a script return with the model, and what programs print of their record. Returns how many calls it has."""
    tree, room, calls, wanted = script_of(f"{seed} live {number}")
    paths = folder / f"{number}.click", folder / f"{number}.calls", folder / f"{number}.record"
    for path, text in zip(paths, (tree, "".join(f"{it}\n" for it in calls))):
        path.write_text(text)
    checker = ANY_LEAK if number < checked else []
    found = run([*checker, *program, paths[0], str(room), *paths[1:]])
    for at, (line, other) in enumerate(zip(found.splitlines(), wanted.splitlines())):
        if line != other:
            before = "\n".join(calls[: at + 1])
            what = f"script {number} of seed {seed}: call {at + 1} prints {line[:TOLD]!r}, where it has to be {other[:TOLD]!r}"
            raise Failed(f"{what}\n{tree}\nroom {room}\n{before}")
    compare(f"script {number} of seed {seed}: lines", found.count("\n"), len(calls))
    for words in programs:
        is_done_again(words, paths[0], paths[2], calls, found.splitlines())
    return len(calls)


def calls_agree(count: int, seed: int, named: str | None) -> Callable[[Setting], str]:
    """Calls by chance return what the model says, and their records repeat them: through C, and by the program that is named."""

    def check(setting: Setting) -> str:
        program, folder = setting.command(built(setting)), setting.made / "live"
        programs = [setting.command(replayer(setting))]
        if named:
            programs.append([clickpull(named), "script"])
        checked = CHECKED if has_valgrind(setting) else 0
        folder.mkdir()
        with ThreadPoolExecutor() as pool:
            calls = sum(pool.map(partial(compared, program, programs, folder, seed, checked), range(count)))
        return f"{calls} calls on {count} routers"

    return check


def checks(count: int, seed: int, named: str | None = None) -> list[Check]:
    """The check of so many routers, and no fewer than TREES."""
    return [Check("live calls that chance brings", calls_agree(max(count, TREES), seed, named))]
