"""The shaper of captures, run on its example. It stands outside what is proved."""
import random
import re
import shutil
import struct
import subprocess
from dataclasses import dataclass
from pathlib import Path

from of_library.checks import Check, Failed, LeftOut, Setting, compare, need, run
from of_library.compiled import BUILT, COMPILERS, MEMCHECK, heap
from of_library.module import python

# The rate of the link in bits a second, and how many microseconds a second has.
RATE, MICROSECONDS = 8_000_000, 1_000_000

# How a capture of Ethernet frames begins.
HEADER = struct.pack("<IHHiIII", 0xA1B2C3D4, 2, 4, 0, 0, 65535, 1)


@dataclass(frozen=True)
class Frame:
    """A frame of a capture: its time in microseconds, its length in bytes, and what of it is kept."""

    time: int
    length: int
    kept: bytes


def frames_of(path: Path) -> list[Frame]:
    """The frames of a capture."""
    data = path.read_bytes()
    frames, at = [], 24
    while at < len(data):
        seconds, rest, kept, length = struct.unpack_from("<IIII", data, at)
        frames.append(Frame(seconds * MICROSECONDS + rest, length, data[at + 16 : at + 16 + kept]))
        at += 16 + kept
    return frames


def write_capture(path: Path, frames: list[Frame]) -> Path:
    """A capture of these frames."""
    heads = [struct.pack("<IIII", it.time // MICROSECONDS, it.time % MICROSECONDS, len(it.kept), it.length) for it in frames]
    path.write_bytes(HEADER + b"".join(head + it.kept for head, it in zip(heads, frames)))
    return path


def judge(before: list[Frame], after: list[Frame]) -> None:
    """Whether what left could have, by the two captures alone: at the link's rate, after it came, and in order of each pair of ends."""
    came: dict[bytes, list[Frame]] = {}
    for it in before:
        came.setdefault(ends_of(it), []).append(it)
    link = 0
    for it in after:
        needs = -(-it.length * 8 * MICROSECONDS // RATE)
        waiting = came.get(ends_of(it), [])
        while waiting and (waiting[0].length, waiting[0].kept) != (it.length, it.kept):
            waiting.pop(0)
        if not waiting:
            raise Failed(f"a frame left at {it.time} that didn't come, or out of order")
        if it.time - needs < max(link, waiting.pop(0).time):
            raise Failed(f"a frame left at {it.time}, before it came or while the link had another")
        link = it.time


def ends_of(frame: Frame) -> bytes:
    """The addresses and ports of a frame, as they stand in it."""
    rest = frame.kept[16:] if frame.kept[12:14] == b"\x81\x00" else frame.kept[12:]
    return rest[14:26] if rest[:2] == b"\x08\x00" else rest[10:46]


def shaped(setting: Setting) -> str:
    """The example's capture is shaped as it is said to be, by either compiler, and clean under valgrind."""
    folder = setting.root / "examples" / "capture"
    before, after = setting.made / "before.pcap", setting.made / "after.pcap"
    run([python(), folder / "make", before])
    programs = [built(setting, it) for it in COMPILERS if shutil.which(it)]
    if not programs:
        raise LeftOut("neither gcc nor clang is there")
    words: list[str | Path] = [folder / "uplink.click", folder / "senders.table", str(RATE), before, after]
    for program in programs:
        compare("shares", run([program, *words]), (folder / "shares.out").read_text())
    judge(frames_of(before), frames_of(after))
    compare("README's shares", (folder / "shares.out").read_text() in (folder / "README.md").read_text(), True)
    left = len(frames_of(after))
    what_is_wrong_is_told(programs[0], setting.made, words)
    what_is_cut_is_read(programs[0], setting.made, words)
    return f"{left} frames of {len(frames_of(before))} left"


def cleanly(program: Path, words: list[str | Path]) -> str:
    """What the shaper prints, under valgrind where it is there."""
    checked = MEMCHECK if shutil.which("valgrind") else []
    return run([*checked, str(program), *words])


def what_is_cut_is_read(program: Path, folder: Path, words: list[str | Path]) -> None:
    """Of frames that are cut anywhere, with bytes that are others, each came or is left out."""
    chance = random.Random(34)
    frames = frames_of(Path(words[3]))
    cut = folder / "cut.pcap"
    with cut.open("wb") as capture:
        capture.write(Path(words[3]).read_bytes()[:24])
        for it in frames:
            kept = bytearray(it.kept[: chance.randrange(len(it.kept) + 1)])
            for place in range(min(60, len(kept))):
                if chance.random() < 0.03:
                    kept[place] = chance.randrange(256)
            capture.write(struct.pack("<IIII", it.time // MICROSECONDS, it.time % MICROSECONDS, len(kept), it.length) + kept)
    told = cleanly(program, [*words[:3], cut, words[4]])
    counted = sum(map(int, re.findall(r"(?:came|left out:) (\d+)", told)))
    compare("frames that came or are left out", counted, len(frames))


# What is wrong with a table, and what the shaper says of it.
WRONG = {
    "0 * *\n1 10.0.0.0/33 *\n": "line 2 isn't SENDER ADDRESS PORT",
    "0 * 70000\n": "line 1 isn't",
    "0 * 9-8\n": "line 1 isn't",
    "0 nowhere *\n": "line 1 isn't",
    "# a comment\n\n65536 * *\n": "line 3 isn't",
    "0 *\n": "line 1 isn't",
    "0 * * *\n": "line 1 isn't",
    "9 * *\n": "sender 9 isn't in",
}


def what_is_wrong_is_told(program: Path, folder: Path, words: list[str | Path]) -> None:
    """A table that is wrong, and files that aren't there, are told, with status 1."""
    table = folder / "wrong.table"
    for text, told in WRONG.items():
        table.write_text(text)
        refused(program, [words[0], table, *words[2:]], told)
    for place in (0, 1, 3, 4):
        missing = [*words[:place], folder / "none" / "none", *words[place + 1 :]]
        refused(program, missing, "none")
    refused(program, [words[1], words[1], *words[2:]], "fault 2: BadText at byte 0")


def refused(program: Path, words: list[str | Path], told: str) -> None:
    """Fails unless the shaper ends with status 1, and says this."""
    done = subprocess.run([program, *words], capture_output=True, text=True)
    if done.returncode != 1 or told not in done.stderr:
        raise Failed(f"{' '.join(map(str, words))}: status {done.returncode} and {done.stderr!r}, where {told!r} has to be told")


def built(setting: Setting, compiler: str, *more: str) -> Path:
    """The shaper, of its sources and more words for the compiler."""
    need("pkg-config")
    if subprocess.run(["pkg-config", "--exists", "libpcap"]).returncode != 0:
        raise LeftOut("libpcap-dev is missing")
    program = setting.made / f"shape-{compiler}"
    sources = map(str, sorted((setting.root / "examples" / "capture").glob("*.c")))
    flags = ["-std=c11", "-D_DEFAULT_SOURCE", *BUILT, "-I", str(setting.include)]
    run([compiler, *flags, *sources, *more, "-o", str(program), str(setting.archive), str(heap()), "-lpcap"])
    return program


CHECKS = [Check("the shaper of captures", shaped)]
