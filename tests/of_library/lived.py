"""Judges what tests/c/live_threads.c prints, by the model of live routers, and its record. It stands outside what is proved."""
import random
import re
from dataclasses import dataclass
from pathlib import Path

from of_library.again import Program, is_done_again
from of_library.chance import tree_and_script
from of_library.checks import Check, Failed, Setting, run
from of_library.compiled import C, MEMCHECK, has_valgrind, program_of
from of_library.model import Model
from of_library.replayed import replayer


# How many routers tests/library runs; tests/soak --live runs as many as one likes.
ROUTERS = 20


class Broken(Exception):
    """A rule is broken."""


def expect(holds: bool, what: str) -> None:
    """Raises Broken unless something holds."""
    if not holds:
        raise Broken(what)


def judge(tree: str, room: int, printed: str) -> int:
    """Raises Broken unless this may be printed: of each sender the packets that its inlet accepted are taken in order, and all else follows
    from what is taken by the rules. Returns how many packets were taken."""
    calls, _, rest = printed.partition("offered ")
    offered: dict[int, list[tuple[int, int]]] = {}
    for line in f"offered {rest}".splitlines() if rest else []:
        word, sender, length, token = line.split()
        expect(word == "offered", f"a call after the end: {line}")
        offered.setdefault(int(sender), []).append((int(length), int(token)))
    model = Model(tree, room)
    taken: dict[int, list[tuple[int, int]]] = {it.number: [] for it in model.lines}
    for line in calls.splitlines():
        call, _, answer = line.partition(" = ")
        if call.startswith("take"):
            wait(model, taken, answer.split())
        if call == "ended":
            end(model, taken, offered)
        wanted = model.carry_out(call)
        expect(f"{call.split()[0]} {answer}" == wanted, f"{line}\nis no {wanted}")
        expect(not any(len(it.waiting) for it in model.lines), f"more is taken than may be: {line}")
    for sender, items in taken.items():
        expect(items == offered.get(sender, [])[: len(items)], f"what is taken of {sender} isn't what its inlet accepted, in order")
    return sum(map(len, taken.values()))


def wait(model: Model, taken: dict[int, list[tuple[int, int]]], answer: list[str]) -> None:
    """Has the packets that a take gave wait in the model's inlets: how many wait there, and whose, is all that the rules leave open."""
    for packet, length, token in zip(answer[2::7], answer[3::7], answer[4::7]):
        sender = int(packet.partition("#")[0])
        expect(sender in taken, f"there is no sender {sender}")
        model.by_number[sender].waiting.append((int(length), int(token)))
        taken[sender].append((int(length), int(token)))


def end(model: Model, taken: dict[int, list[tuple[int, int]]], offered: dict[int, list[tuple[int, int]]]) -> None:
    """The inlets are told to have ended: all that they accepted is taken."""
    for it in model.lines:
        expect(len(taken[it.number]) == len(offered.get(it.number, [])), f"sender {it.number} is told to have ended too early")
        it.has_ended = True


def altered(chance: random.Random, printed: str) -> str:
    """What is printed, with one number of an answer altered."""
    lines = printed.splitlines(keepends=True)
    at = chance.choice([number for number, line in enumerate(lines) if " = " in line])
    call, equal, answer = lines[at].partition(" = ")
    place = chance.choice(list(re.finditer(r"\d+", answer)))
    lines[at] = call + equal + answer[: place.start()] + str(int(place[0]) + 1) + answer[place.end() :]
    return "".join(lines)


@dataclass(frozen=True)
class Programs:
    """The command of a program that runs a live router, and that of one that replays records."""

    live: Program
    replay: Program


def built(setting: Setting) -> Programs:
    """The programs."""
    program = program_of(setting, "cc", [*C, setting.root / "tests" / "c" / "live_threads.c"], "live-threads")
    return Programs(setting.command(program), setting.command(replayer(setting)))


def live_once(programs: Programs, chance: random.Random, room: Path) -> int:
    """Runs a live router at random, replays its record, and judges what it prints as it is and with one number altered. Returns how many were
    taken."""
    tree = ""
    while "Sender" not in tree:
        tree = tree_and_script(chance)[0]
    path, record = room / "tree.click", room / "record.script"
    path.write_text(tree)
    slots, packets, seed = chance.choice([1, 2, 7, 64, 300]), chance.choice([0, 5, 100, 2000]), chance.getrandbits(30)
    printed = run([*programs.live, path, str(slots), str(packets), str(seed), record])
    (room / "printed").write_text(printed)
    calls = [it.split(" = ") for it in printed.splitlines() if " = " in it]
    is_done_again(programs.replay, path, record, [call for call, _ in calls], [f"{call.split()[0]} {answer}" for call, answer in calls])
    try:
        taken = judge(tree, slots, printed)
    except (Broken, LookupError, ValueError) as it:
        raise Failed(f"room {slots}, packets {packets}, seed {seed}: {type(it).__name__}: {it}") from it
    try:
        judge(tree, slots, altered(chance, printed))
    except (Broken, LookupError, ValueError):
        return taken
    raise Failed(f"room {slots}, packets {packets}, seed {seed}: the judge takes it for right where one number is altered")


def are_judged(setting: Setting) -> str:
    """Some live routers on threads are judged."""
    programs, folder = built(setting), setting.made / "lived"
    folder.mkdir()
    packets = sum(live_once(programs, random.Random(f"library {it}"), folder) for it in range(ROUTERS))
    if has_valgrind(setting):
        for seed in ("2", "3"):
            run([*MEMCHECK, *programs.live, folder / "tree.click", "4", "60", seed, folder / "record.script"])
    return f"{packets} packets through {ROUTERS} routers"


CHECKS = [Check("live routers on threads, judged", are_judged)]
