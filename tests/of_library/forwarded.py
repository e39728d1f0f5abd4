"""The example for DPDK, run from capture to capture. What it recorded is repeated without threads, and has to come to the same.

It stands outside what is proved.
"""
import re
import shutil
import signal
import struct
import subprocess
import time
from collections.abc import Sequence
from dataclasses import dataclass, replace
from pathlib import Path
from typing import NamedTuple

from of_library.captured import Frame, frames_of, refused, write_capture
from of_library.checks import LONGEST, Check, Failed, LeftOut, Setting, compare, run
from of_library.compiled import COMPILERS, MEMCHECK, heap
from of_library.forwarding import MACHINE, SHARED, Sources, built, cores
from of_library.module import python
from of_library.replayed import replayer, same

# A packet that was emitted, in the answer of a script, and a sender's line there and in the example's report.
EMITTED = re.compile(r"^pull \d+: (\d+)#(\d+) \d+$", re.M)
SENDER = re.compile(r"^sender (\d+): sent (\d+) \d+, accepted (\d+) \d+, refused (\d+) \d+, evicted (\d+) \d+, emitted (\d+) (\d+)$", re.M)
WORDS = ("sent", "overrun", "accepted", "refused", "evicted", "emitted", "left", "bytes")
REPORTED = re.compile(r"^sender \d+: " + ", ".join(rf"{it} (\d+)" for it in WORDS) + r", share [\d.]+$", re.M)
ALL = re.compile(r"^all: came (\d+), left out (\d+), missed (\d+), transmitted (\d+), unsent (\d+)$", re.M)

# The words of a command.
Command = list[str | Path]

# How many senders the table has, and how many bytes the longest frame has that a link is paced by.
SENDERS, LONGEST_FRAME = 4, 1518

# A tree in which what a pull emits depends on its moment, and on the pulls before that emitted nothing.
SHAPED = """a :: Sender(0); b :: Sender(1); c :: Sender(2); d :: Sender(3);
p :: FrontDropQueue(10); q, r, t :: Queue(60); shares :: DRRSched(300); pace :: Shaper(1, 4); link :: ToDevice(out);
a -> p -> shares; b -> q -> [1] shares; c -> r -> [2] shares; d -> t -> [3] shares; shares -> pace -> link;
"""

# A port that takes a part of each burst, or nothing of it.
RELUCTANT = """#include <rte_ethdev.h>
static uint16_t few(uint16_t port, uint16_t queue, struct rte_mbuf **frames, uint16_t count, void *nothing) {
    static unsigned calls;
    (void)port, (void)queue, (void)frames, (void)nothing;
    return calls++ % 3 == 0 ? 0 : (uint16_t)((count + 1) / 2);
}
int __real_rte_eth_dev_start(uint16_t port);
int __wrap_rte_eth_dev_start(uint16_t port);
int __wrap_rte_eth_dev_start(uint16_t port) {
    return rte_eth_add_tx_callback(port, 0, few, NULL) == NULL ? -1 : __real_rte_eth_dev_start(port);
}
"""


@dataclass(frozen=True)
class Forwarder:
    """The built example, also over a reluctant port, with what its runs need: a folder for what it writes, the examples, programs that
    repeat a record, and the frames of the example's capture."""

    program: Path
    reluctant: Path
    folder: Path
    examples: Path
    repeaters: list[Command]
    frames: list[Frame]

    @property
    def tree(self) -> Path:
        """The tree for one receive queue."""
        return self.examples / "capture" / "uplink.click"

    @property
    def table(self) -> Path:
        """The table."""
        return self.examples / "capture" / "senders.table"

    @property
    def after(self) -> Path:
        """The capture that it writes."""
        return self.folder / "after.pcap"

    @property
    def record(self) -> Path:
        """The record."""
        return self.folder / "run.script"

    def start(self, devices: Sequence[str], threads: int, ours: Sequence[str | Path]) -> Command:
        """What starts it over devices, with words of its own."""
        return [self.program, *MACHINE, cores(threads), *(f"--vdev={it}" for it in devices), "--", *ours]

    def over(self, captures: Sequence[Path], more: str = "") -> list[str]:
        """The device with a receive queue for each of these captures."""
        return ["".join(["net_pcap0", *(f",rx_pcap={it}" for it in captures), more, f",tx_pcap={self.after}"])]


def sender_of(frame: Frame) -> int | None:
    """Whose a frame of examples/capture/make is, as senders.table says."""
    packet = frame.kept[18:] if frame.kept[12:14] == b"\x81\x00" else frame.kept[14:]
    if packet[0] >> 4 not in (4, 6):
        return None
    size, at, ports = (4, 12, 20) if packet[0] >> 4 == 4 else (16, 8, 40)
    ends = [packet[at : at + size], packet[at + size : at + 2 * size]]
    if any(5004 <= it <= 5060 for it in struct.unpack_from("!HH", packet, ports)):
        return 0
    for sender, begin in ((1, b"\x0a\0\1"), (2, b"\x0a\0\2"), (2, bytes.fromhex("20010db80002")), (3, b"\x0a\0\x09")):
        if any(it.startswith(begin) for it in ends):
            return sender
    return None


def frames_of_example(examples: Path, folder: Path) -> list[Frame]:
    """The frames of the example's capture, each of which ends with a number of its own."""
    path = folder / "before.pcap"
    run([python(), examples / "capture" / "make", "--whole", path])
    return [replace(it, kept=it.kept[:-4] + struct.pack("!I", number)) for number, it in enumerate(frames_of(path))]


def by_sender(queues: list[list[Frame]]) -> dict[int, list[Frame]]:
    """The frames of each sender of the tree, in order."""
    frames: dict[int, list[Frame]] = {}
    for queue, all_of_them in enumerate(queues):
        for it in all_of_them:
            sender = sender_of(it)
            if sender is not None:
                frames.setdefault(SENDERS * queue + sender, []).append(it)
    return frames


def repeated(forwarder: Forwarder, tree: Path) -> str:
    """What the repetition of the record prints, by each program that can do it."""
    first, *others = [run([*it, tree, forwarder.record]) for it in forwarder.repeaters]
    for it in others:
        same(tree, it, first)
    return first


class Account(NamedTuple):
    """How many frames of a sender went which way, and bytes that were emitted."""

    sent: int
    accepted: int
    refused: int
    evicted: int
    emitted: int
    bytes: int


def accounts_of(answer: str) -> list[Account]:
    """What an answer reports of each sender of the table."""
    sums = [[0] * len(Account._fields) for _ in range(SENDERS)]
    for sender, *numbers in SENDER.findall(answer):
        sums[int(sender) % SENDERS] = [one + int(other) for one, other in zip(sums[int(sender) % SENDERS], numbers)]
    return [Account(*it) for it in sums]


def reported(told: str) -> list[tuple[int, ...]]:
    """What the example reports of each sender, as WORDS has it."""
    return [tuple(map(int, it)) for it in REPORTED.findall(told)]


def sums(told: str) -> tuple[int, ...]:
    """What the example reports of all frames: how many came, were left out, missed, transmitted, and not sent."""
    found = ALL.findall(told)
    compare("how many lines there are for all frames", len(found), 1)
    return tuple(map(int, found[0]))


def seconds(told: str) -> float:
    """How long the run took, as it reports."""
    return float(*re.findall(r"^in ([\d.]+) seconds,", told, re.M))


def sent_of(frames: dict[int, list[Frame]], sender: int) -> int:
    """How many frames a sender of the table sent, from all receive queues."""
    return sum(len(it) for number, it in frames.items() if number % SENDERS == sender)


def left_as_recorded(forwarder: Forwarder, tree: Path, queues: list[list[Frame]]) -> str:
    """What was transmitted is what the repetition of the record emits. Returns what that prints."""
    answer, frames = repeated(forwarder, tree), by_sender(queues)
    # A drain that emits something would have more.
    compare("how many pulls are repeated", *(len(re.findall(r"^pull ", it, re.M)) for it in (answer, forwarder.record.read_text())))
    wanted = [(int(sender), int(number)) for sender, number in EMITTED.findall(answer)]
    left = [it.kept for it in frames_of(forwarder.after)]
    compare("how many were transmitted", len(left), len(wanted))
    for place, (frame, (sender, number)) in enumerate(zip(left, wanted)):
        compare(f"frame {place} that was transmitted", frame.hex(), frames[sender][number].kept.hex())
    return answer


def told_as_recorded(told: str, answer: str, queues: list[list[Frame]]) -> list[Account]:
    """The report is that of the record's repetition. Returns the accounts."""
    frames, accounts = by_sender(queues), accounts_of(answer)
    compare("the report", reported(told), [(it.sent, 0, it.accepted, it.refused, it.evicted, it.emitted, 0, it.bytes) for it in accounts])
    came, left = sum(map(len, queues)), sum(it.emitted for it in accounts)
    compare("the sums", sums(told), (came, came - sum(map(len, frames.values())), 0, left, 0))
    return accounts


def forwards(forwarder: Forwarder, tree: Path, queues: list[list[Frame]], *more: str) -> tuple[str, list[Account]]:
    """Forwards the frames of these receive queues, with a core for each, and compares. Returns the report."""
    ours = recorded(forwarder, tree, queues, "--once", *more)
    told = run(forwarder.start(forwarder.over(captures_of(forwarder, queues)), 1 + len(queues), ours))
    compare("how many each sender sent", [it[0] for it in reported(told)], [sent_of(by_sender(queues), it) for it in range(SENDERS)])
    return told, told_as_recorded(told, left_as_recorded(forwarder, tree, queues), queues)


def captures_of(forwarder: Forwarder, queues: list[list[Frame]]) -> list[Path]:
    """A capture for each receive queue."""
    return [write_capture(forwarder.folder / f"before{number}.pcap", it) for number, it in enumerate(queues)]


def recorded(forwarder: Forwarder, tree: Path, queues: list[list[Frame]], *more: str) -> Command:
    """Words for a run that is recorded, with room for all frames."""
    room = max(map(len, by_sender(queues).values()))
    return [tree, forwarder.table, "--queues", str(len(queues)), "--room", str(room), "--record", forwarder.record, *more]


def one_queue(forwarder: Forwarder) -> None:
    """Frames of one receive queue, on a link that is too slow for them: queues refuse and evict, and the link keeps to its rate."""
    told, accounts = forwards(forwarder, forwarder.tree, [forwarder.frames], "--rate", "2M")
    compare("whether queues refused", [it.refused > 0 for it in accounts], [False, True, True, True])
    compare("whether queues evicted", [it.evicted > 0 for it in accounts], [True, False, False, False])
    least = (sum(it.bytes for it in accounts) - LONGEST_FRAME) * 8 / 2_000_000
    compare(f"whether {seconds(told)} seconds are {least} or more", seconds(told) >= least, True)


def four_queues(forwarder: Forwarder) -> None:
    """Frames of four receive queues: each core has inlets of its own."""
    frames = forwarder.frames
    forwards(forwarder, forwarder.examples / "dpdk" / "four.click", [frames[it::4] for it in range(4)], "--rate", "80M")


def shaped(forwarder: Forwarder) -> None:
    """A Shaper counts ticks of 50 microseconds, and quanta are short: what is emitted depends on the moment of each pull, and on how many
    emitted nothing."""
    tree = forwarder.folder / "shaped.click"
    tree.write_text(SHAPED)
    told, _ = forwards(forwarder, tree, [forwarder.frames], "--tick", "50")
    least = int(re.findall(r"^pull (\d+)", forwarder.record.read_text(), re.M)[-1]) * 50 / 1_000_000
    compare(f"whether {seconds(told)} seconds are {least} or more", seconds(told) + 0.001 >= least, True)


def held(forwarder: Forwarder) -> None:
    """With --hold no frame is refused or evicted."""
    _, accounts = forwards(forwarder, forwarder.tree, [forwarder.frames], "--hold")
    compare("accepted and emitted", [(it.accepted, it.emitted) for it in accounts], [(it.sent, it.sent) for it in accounts])


def port_is_reluctant(forwarder: Forwarder) -> None:
    """A port that takes a part of each burst gets the rest later, in order."""
    forwards(replace(forwarder, program=forwarder.reluctant), forwarder.tree, [forwarder.frames], "--rate", "1G")


def conserves(told: str) -> None:
    """Each frame that came is accounted for once."""
    sent, overrun, accepted, refused, evicted, emitted, left, _ = map(sum, zip(*reported(told)))
    came, left_out, missed, transmitted, unsent = sums(told)
    compare("frames that came", came, left_out + sent)
    compare("frames that were sent", sent, overrun + accepted + refused)
    compare("frames that were accepted", accepted, evicted + emitted + left)
    compare("frames that were emitted", emitted, transmitted + unsent)
    compare("frames that were missed", missed, 0)


def left_inside(told: str) -> int:
    """How many frames were inside at the end."""
    return sum(it[WORDS.index("left")] for it in reported(told))


def endless(forwarder: Forwarder, *more: str | Path) -> Command:
    """What starts a run whose capture is repeated without an end."""
    capture = write_capture(forwarder.folder / "few.pcap", forwarder.frames[:500])
    return forwarder.start(forwarder.over([capture], ",infinite_rx=1"), 2, [forwarder.tree, forwarder.table, *more])


def ends_by_number(forwarder: Forwarder) -> None:
    """The run ends once so many frames have come, though more would, and what is inside is sent."""
    told = run(endless(forwarder, "--frames", "2000"))
    conserves(told)
    compare("frames that are left", left_inside(told), 0)
    came = sums(told)[0]
    compare(f"whether {came} frames are 2000 and no more than a burst", 2000 <= came < 2000 + 64, True)


def ends_by_time(forwarder: Forwarder) -> None:
    """After a second the run ends, and the mbufs of frames that are inside come back, or it would have another status."""
    queues = [forwarder.frames]
    words = recorded(forwarder, forwarder.tree, queues, "--rate", "100k", "--seconds", "1")
    told = run(forwarder.start(forwarder.over(captures_of(forwarder, queues)), 2, words))
    conserves(told)
    left_as_recorded(forwarder, forwarder.tree, queues)
    compare("whether frames are left", left_inside(told) > 0, True)
    compare("whether the record drains them", "drain" in forwarder.record.read_text(), False)


def ends_by_signal(forwarder: Forwarder) -> None:
    """A signal ends the run, once frames have come."""
    for it in (signal.SIGINT, signal.SIGTERM):
        forwarder.record.unlink(missing_ok=True)
        words = endless(forwarder, "--rate", "1M", "--record", forwarder.record)
        with subprocess.Popen(words, stdout=subprocess.PIPE, stderr=subprocess.PIPE, text=True) as done:
            while done.poll() is None and not (forwarder.record.exists() and forwarder.record.stat().st_size > 0):
                time.sleep(0.01)
            done.send_signal(it)
            told, wrong = done.communicate(timeout=LONGEST)
        if done.returncode != 0:
            raise Failed(f"{it.name}: status {done.returncode} and {wrong!r}")
        conserves(told)
        compare("whether frames are left", left_inside(told) > 0, True)


def port_takes_no_more(forwarder: Forwarder) -> None:
    """Frames that a port doesn't take wait, and are counted and freed at the end. The ring of net_ring keeps those that it took."""
    capture = write_capture(forwarder.folder / "many.pcap", forwarder.frames)
    words = forwarder.start([f"net_pcap0,rx_pcap={capture}", "net_ring0"], 2, [forwarder.tree, forwarder.table, "--seconds", "1"])
    done = subprocess.run(words, capture_output=True, text=True, timeout=LONGEST)
    conserves(done.stdout)
    transmitted, unsent = sums(done.stdout)[3:]
    compare("frames in the ring, and whether others wait", (transmitted, unsent > 0), (1023, True))
    compare("what is told", re.findall(r"^forward: (\d+) of \d+ mbufs aren't back in their pool$", done.stderr, re.M), [str(transmitted)])


def cleanly(forwarder: Forwarder) -> None:
    """Under valgrind, where it is there, no error and no leak is found. DPDK's own threads leave memory that may be lost."""
    if shutil.which("valgrind") is None:
        return
    kinds = [f"--{it}-leak-kinds=definite,indirect" for it in ("show", "errors-for")]
    captures, ours = captures_of(forwarder, [forwarder.frames]), recorded(forwarder, forwarder.tree, [forwarder.frames], "--once")
    words = forwarder.start(forwarder.over(captures), 2, ours)
    told = run([*MEMCHECK, *kinds, *words])
    told_as_recorded(told, left_as_recorded(forwarder, forwarder.tree, [forwarder.frames]), [forwarder.frames])


def page_is_right(forwarder: Forwarder) -> None:
    """The page has each word, a report whose sums are right, calls as the code has them, and the files that both examples have."""
    example = forwarder.examples / "dpdk"
    page, scheduler = (example / "README.md").read_text(), (example / "scheduler.c").read_text()
    known = set(re.findall(r'\{"(\w+)", (?:no|required)_argument', (example / "options.c").read_text()))
    compare("words of the page", set(re.findall(r"^\| `--(\w+)", page, re.M)), known)
    conserves(page)
    shown = re.findall(r"^(clk_\w+\(.*?\));", page, re.M)
    compare("calls of the page that the code has", [it for it in shown if it not in scheduler], [])
    compare("whether the page shows calls", len(shown) > 0, True)
    shared = ",".join(it.removesuffix(".c") for it in SHARED)
    compare("whether the page builds what is shared", f"../capture/{{{shared}}}.c" in page, True)


def what_is_wrong_is_told(forwarder: Forwarder) -> None:
    """Words and files that are wrong are told, with status 1."""
    capture = write_capture(forwarder.folder / "few.pcap", [])
    two = forwarder.folder / "two.click"
    two.write_text("a, b :: ToDevice(x); p, q :: Queue; s :: Sender(0); s -> p -> a; q -> b;")
    tree, table, four = forwarder.tree, forwarder.table, forwarder.examples / "dpdk" / "four.click"
    empty = forwarder.folder / "empty.table"
    empty.write_text("# nobody\n")
    numbers = ("0", "65", "-1", " 1", "1x")
    wrong: list[tuple[Command, str]] = [
        ([], "usage: forward"),
        ([tree, table, "more"], "usage: forward"),
        ([tree, table, "--wrong"], "usage: forward"),
        ([tree, table, "--rate", "8x"], "'8x' isn't a rate"),
        ([forwarder.folder / "none", table], "none: No such file"),
        ([tree, forwarder.folder / "none"], "none: No such file"),
        ([table, table], "fault 2: BadText at byte 0"),
        ([two, table], f"{two}: it has 2 devices"),
        ([tree, empty], f"{empty}: it has no lines"),
        ([tree, tree], "line 1 isn't SENDER ADDRESS PORT"),
        ([tree, table, "--queues", "2"], f"sender 0 of receive queue 1 is Sender(4), which isn't in {tree}"),
        ([four, table, "--queues", "2"], "port 0: it has 1 receive queues at most, and 2 are asked for"),
        ([tree, table, "--record", forwarder.folder / "none" / "none"], "none/none: No such file"),
        ([tree, table, "--room", "16000000"], "no pool of"),
    ]
    for it in numbers:
        wrong.append(([tree, table, "--queues", it], f"'{it}' isn't a number from 1 to 64"))
    for words, told in wrong:
        refused(forwarder.program, forwarder.start(forwarder.over([capture]), 2, words)[1:], told)
    refused(forwarder.program, forwarder.start(forwarder.over([capture]), 1, [tree, table])[1:], "there is no other to receive")
    refused(forwarder.program, [*MACHINE, cores(2), "--", tree, table], "there are 0 ports")


RUNS = (
    one_queue,
    four_queues,
    shaped,
    held,
    port_is_reluctant,
    ends_by_number,
    ends_by_time,
    ends_by_signal,
    port_takes_no_more,
)


def reluctant(setting: Setting, folder: Path, compiler: str) -> Path:
    """The example over a port that takes a part of each burst."""
    own, source = Sources.of_library(setting.root), folder / "reluctant.c"
    source.write_text(RELUCTANT)
    wrapping: Command = [setting.archive, heap(), "-Wl,--wrap=rte_eth_dev_start"]
    return built(folder / "reluctant", compiler, Sources([*own.files, source], own.headers), wrapping)


def made(setting: Setting, compiler: str, program: str | None) -> Forwarder:
    """The example, built by a compiler, and the programs that repeat its records."""
    folder = setting.made / f"forwarded-{compiler}"
    folder.mkdir()
    example = built(folder / "forward", compiler, Sources.of_library(setting.root), [setting.archive, heap()])
    repeaters: list[Command] = [[replayer(setting)]]
    if program:
        repeaters.append([program, "script"])
    examples = setting.root / "examples"
    frames = frames_of_example(examples, folder)
    return Forwarder(example, reluctant(setting, folder, compiler), folder, examples, repeaters, frames)


def frames_are_forwarded(setting: Setting, program: str | None) -> str:
    """Each run holds, by either compiler, and the peer that bench/dpdk measures is built."""
    compilers = [it for it in COMPILERS if shutil.which(it)]
    if not compilers:
        raise LeftOut("neither gcc nor clang is there")
    for compiler in compilers:
        forwarder = made(setting, compiler, program)
        built(forwarder.folder / "peer", compiler, Sources.of_peer(setting.root), [])
        # Messages about wrong words don't depend on the compiler.
        for it in [*RUNS, *([cleanly, page_is_right, what_is_wrong_is_told] if compiler == compilers[0] else [])]:
            try:
                it(forwarder)
            except Failed as why:
                raise Failed(f"{it.__name__}, by {compiler}: {why}") from None
    checked = ", and under valgrind" if shutil.which("valgrind") else ", without valgrind, which is missing"
    return f"{len(RUNS)} runs, by {' and '.join(compilers)}{checked}"


def checks(program: str | None) -> list[Check]:
    """The check, which repeats records by this program too, if one is named."""
    return [Check("the example for DPDK", lambda setting: frames_are_forwarded(setting, program))]
