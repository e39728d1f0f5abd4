"""Trees and scripts that chance brings, replayed through C and Python beside the program. It stands outside what is proved."""
import random
import re
import shutil
import subprocess
from collections.abc import Iterator
from concurrent.futures import ThreadPoolExecutor
from dataclasses import dataclass
from pathlib import Path

from of_library.checks import Check, Failed, LeftOut, Setting, run
from of_library.module import environment, python
from of_library.replayed import as_recorded, replayer, same

# Python replays so many scripts in one start.
AT_ONCE = 200

REPLAY = """
import contextlib, sys
sys.path.insert(0, sys.argv[1])
import replay
for number in range(int(sys.argv[3]), int(sys.argv[4])):
    with open(f"{sys.argv[2]}/{number}.python", "w") as answer, contextlib.redirect_stdout(answer):
        replay.main(*(f"{sys.argv[2]}/{number}.{it}" for it in ("click", "script", "python-record")))
"""


@dataclass
class Text:
    """A tree that is being made: its lines, its senders, and how many of each kind of element it has."""

    chance: random.Random
    lines: list[str]
    senders: list[int]
    queues: int = 0
    schedulers: int = 0

    def queue(self) -> str:
        """A queue with senders of its own, maybe none."""
        name = f"q{self.queues}"
        self.queues += 1
        kind = self.chance.choice(["Queue", "FrontDropQueue"])
        self.lines.append(f"{name} :: {kind}({self.chance.choice([1, 1, 2, 3, 5, 8, 40])});")
        for _ in range(self.chance.choice([0, 1, 1, 1, 2, 3])):
            number = self.chance.choice([it for it in range(600) if it not in self.senders])
            self.senders.append(number)
            self.lines.append(f"s{number} :: Sender({number}); s{number} -> {name};")
        return name

    def scheduler(self, depth: int) -> str:
        """A scheduler or a Shaper over what is below it."""
        name = f"n{self.schedulers}"
        self.schedulers += 1
        kind = self.chance.choice(["PrioSched", "RoundRobinSched", "DRRSched", "DRRSched", "StrideSched", "Shaper"])
        inputs = 1 if kind == "Shaper" else self.chance.choice([1, 2, 2, 3, 4, 12])
        self.lines.append(f"{name} :: {kind}{self.arguments(kind, inputs)};")
        for port in range(inputs):
            self.lines.append(f"{self.node(depth - 1)} -> [{port}] {name};")
        return name

    def arguments(self, kind: str, inputs: int) -> str:
        """Arguments that a scheduler may have."""
        if kind == "DRRSched":
            quanta = [str(self.chance.choice([40, 300, 500, 1500, 9000])) for _ in range(self.chance.choice([1, inputs]))]
            return f"({', '.join(quanta)})"
        if kind == "StrideSched":
            return f"({', '.join(str(self.chance.choice([1, 2, 3, 100, 32768])) for _ in range(inputs))})"
        if kind == "Shaper":
            return f"({self.chance.choice([1, 1, 2, 5])}, {self.chance.choice([1, 2, 3, 9])})"
        return ""

    def node(self, depth: int) -> str:
        """A queue, or a scheduler where there is depth left."""
        return self.scheduler(depth) if depth > 0 and self.queues < 12 and self.chance.random() < 0.7 else self.queue()


def tree_and_script(chance: random.Random) -> tuple[str, str]:
    """A tree and a script for it, with lines of all kinds."""
    text = Text(chance, [], [])
    devices = chance.choice([1, 1, 1, 2, 3])
    for device in range(devices):
        text.lines.append(f"d{device} :: ToDevice(w{device});")
        text.lines.append(f"{text.node(chance.choice([0, 1, 2, 3, 4]))} -> d{device};")
    return "\n".join(text.lines) + "\n", "".join(commands(chance, text.senders, devices))


def commands(chance: random.Random, senders: list[int], devices: int) -> Iterator[str]:
    """The lines of a script."""
    moment = 0
    for _ in range(chance.choice([0, 5, 40, 150])):
        if senders and chance.random() < 0.55:
            yield f"send {chance.choice(senders)} {chance.choice([1, 40, 64, 500, 1500, chance.randint(1, 65535)])}\n"
        else:
            moment = max(0, moment + chance.choice([-3, 0, 0, 0, 1, 1, 2, 30]))
            device = f" {chance.randrange(devices)}" if chance.random() < 0.6 else ""
            yield f"pull {moment}{device}\n"
    if chance.random() < 0.9:
        yield f"drain {max(0, moment + chance.choice([-5, 0, 1, 100]))}\n"


def clickpull(named: str | None) -> str:
    """The built program."""
    found = named or shutil.which("clickpull")
    if found is None:
        raise LeftOut("there is no clickpull on the PATH, and none is named (--program)")
    return found


def replayed(setting: Setting, count: int, seed: int, named: str | None) -> str:
    """Each script prints through C and through Python what the program prints, and the records of both are the script."""
    program, replay = clickpull(named), replayer(setting)
    folder = setting.made / "chance"
    folder.mkdir()
    for number in range(count):
        tree, script = tree_and_script(random.Random(f"{seed} {number}"))
        (folder / f"{number}.click").write_text(tree)
        (folder / f"{number}.script").write_text(script)
    with ThreadPoolExecutor() as pool:
        list(pool.map(lambda it: by_python(setting, folder, it, min(it + AT_ONCE, count)), range(0, count, AT_ONCE)))
        lines = sum(pool.map(lambda it: by_all(program, replay, folder, it), range(count)))
    return f"{count} trees and scripts, {lines} lines of answers"


def by_python(setting: Setting, folder: Path, begin: int, end: int) -> None:
    """Replays some scripts through Python, and keeps their answers."""
    tests = setting.root / "python" / "tests"
    run([python(), "-c", REPLAY, tests, folder, str(begin), str(end)], environment(setting))


def by_all(program: str, replay: Path, folder: Path, number: int) -> int:
    """Compares the answers of a script, and says how many lines they have."""
    tree, script = folder / f"{number}.click", folder / f"{number}.script"
    records = [folder / f"{number}.{it}-record" for it in ("c", "python")]
    wanted = run([program, "script", tree, script])
    by_c = run([replay, tree, script, records[0]])
    try:
        for found in (by_c, (folder / f"{number}.python").read_text()):
            same(tree, found, wanted)
        for record in records:
            same(script, record.read_text(), as_recorded(script))
    except Failed as it:
        raise Failed(f"{it}\n{tree.read_text()}\n{script.read_text()}") from None
    return wanted.count("\n")


# Texts that are wrong, most of them.


def changed(chance: random.Random, text: bytes) -> bytes:
    """A text in which a few bytes are gone, doubled, or others."""
    for _ in range(chance.choice([1, 1, 1, 2, 5])):
        begin = chance.randrange(len(text) + 1)
        end = min(len(text), begin + chance.choice([0, 1, 1, 2, 8]))
        put = chance.choice([b"", text[begin:end] * 2, chance.choice(MARKS), bytes([chance.randrange(256)])])
        text = text[:begin] + put + text[end:]
    return text


MARKS = [b"[0]", b"[7]", b"->", b"::", b";", b"(", b")", b",", b"//", b"/*", b"*/", b"0", b"65536", b"Queue", b"q0", b"d0", b"Heap", b"\n"]

# A fault as the program prints it, and as the replaying program does.
PRINTED = re.compile(r"fault (\d+): \w+(?: (?:at byte )?(\d+))?")


def fault_of(words: list[str | Path]) -> tuple[int, int] | None:
    """The number and the place of the fault that a program tells, or none."""
    done = subprocess.run([str(it) for it in words], capture_output=True, text=True, errors="replace")
    if done.returncode == 0:
        return None
    found = PRINTED.search(done.stderr)
    if done.returncode != 1 or found is None:
        raise Failed(f"{' '.join(map(str, words))}\n{done.stderr}it ended with status {done.returncode}")
    return int(found[1]), int(found[2] or 0)


def told(setting: Setting, count: int, seed: int, named: str | None) -> str:
    """Of each text the library tells the fault that the program does, at the same place."""
    program, replay = clickpull(named), replayer(setting)
    folder = setting.made / "texts"
    folder.mkdir()
    (folder / "none.script").write_text("")

    def faulty(number: int) -> bool:
        chance = random.Random(f"{seed} text {number}")
        tree = folder / f"{number}.click"
        tree.write_bytes(changed(chance, tree_and_script(chance)[0].encode()))
        wanted = fault_of([program, "check", tree])
        found = fault_of([replay, tree, folder / "none.script"])
        if found != wanted:
            raise Failed(f"the library tells {found}, where the program tells {wanted}, of this text:\n{tree.read_bytes()!r}")
        return wanted is not None

    with ThreadPoolExecutor() as pool:
        wrong = sum(pool.map(faulty, range(count)))
    return f"{count} texts, {wrong} with a fault"


def checks(count: int, seed: int, program: str | None) -> list[Check]:
    """The checks of so many trees and scripts, and of as many texts."""
    return [
        Check("trees and scripts that chance brings", lambda setting: replayed(setting, count, seed, program)),
        Check("texts that chance brings", lambda setting: told(setting, count, seed, program)),
    ]
