"""The shaper of captures where its files and words are wrong or unusual. It stands outside what is proved."""
import os
import re
import shutil
import struct
import subprocess
from collections.abc import Sequence
from dataclasses import dataclass, replace
from pathlib import Path
from typing import IO

from of_library.captured import HEADER, Frame, built, cleanly, frames_of, refused, write_capture
from of_library.checks import Check, Failed, LeftOut, Setting, compare, run
from of_library.compiled import COMPILERS
from of_library.module import python

ONE_SENDER = "a :: Sender(0); q :: Queue(100); d :: ToDevice(x); a -> q -> d;"


@dataclass(frozen=True)
class Shaper:
    """A built shaper, one that can't close a file, a folder for what they write, and the example's words: tree, table and IN."""

    program: Path
    unclosing: Path
    folder: Path
    tree: Path
    table: Path
    before: Path

    @property
    def after(self) -> Path:
        """Where it writes."""
        return self.folder / "after.pcap"

    def words(self, **other: str | Path) -> list[str | Path]:
        """The words of the example, of which these are others."""
        usual: dict[str, str | Path] = {"tree": self.tree, "table": self.table, "rate": "8000000"}
        usual.update(before=self.before, after=self.after)
        return list({**usual, **other}.values())

    def refuses(self, told: str, **other: str | Path) -> None:
        """Fails unless the shaper says this, with status 1, and writes no capture."""
        self.after.unlink(missing_ok=True)
        refused(self.program, self.words(**other), told)
        compare(f"a capture after {told!r}", self.after.exists(), False)

    def ends(self, words: Sequence[str | Path], stdout: int | IO[bytes] = subprocess.PIPE) -> subprocess.CompletedProcess[bytes]:
        """The shaper, run with these words."""
        return subprocess.run([self.program, *words], stdout=stdout, stderr=subprocess.PIPE)

    def counts(self, tree: str, table: str, frames: list[Frame]) -> tuple[list[int], int]:
        """How many frames of each sender came, and how many are left out."""
        words = self.words(tree=text(self, "tree", tree), table=text(self, "table", table), before=capture(self, frames))
        told = cleanly(self.program, words)
        return list(map(int, re.findall(r"came (\d+)", told))), int(told.split("left out: ")[1])


def text(shaper: Shaper, name: str, words: str) -> Path:
    """A file with this text."""
    path = shaper.folder / name
    path.write_text(words)
    return path


def capture(shaper: Shaper, frames: list[Frame]) -> Path:
    """A capture of these frames."""
    return write_capture(shaper.folder / "made.pcap", frames)


def udp(port: int) -> bytes:
    """A datagram to a port."""
    return struct.pack("!HHHH", 9, port, 8, 0)


def version_4(port: int) -> bytes:
    """An Ethernet frame of UDP over IPv4 to a port."""
    return bytes(12) + b"\x08\x00" + struct.pack("!BBHHHBBHII", 0x45, 0, 28, 0, 0, 64, 17, 0, 1, 2) + udp(port)


def version_6(extensions: Sequence[int], port: int, fragment: int = 0) -> bytes:
    """An Ethernet frame of UDP over IPv6 to a port, behind these extension headers. A fragment is the one at this offset."""
    kinds = [*extensions, 17]
    rest = b""
    for kind, after in zip(extensions, kinds[1:]):
        rest += struct.pack("!BBHI", after, 0, fragment << 3, 7) if kind == 44 else struct.pack("!BB", after, 1) + bytes(14)
    rest += udp(port)
    return bytes(12) + b"\x86\xdd" + struct.pack("!IHBB", 0x60000000, len(rest), kinds[0], 64) + bytes(32) + rest


def full_disks_are_told(shaper: Shaper) -> None:
    """A capture or a report that doesn't fit on the disk is told, and no report says that frames left."""
    if not Path("/dev/full").exists():
        return
    few = capture(shaper, [Frame(0, 100, version_4(5004))])
    for before in (shaper.before, few):
        done = shaper.ends(shaper.words(before=before, after="/dev/full"))
        compare("/dev/full as OUT", (done.returncode, done.stdout), (1, b""))
        compare("what is told of it", b"/dev/full: No space left on device" in done.stderr, True)
    with open("/dev/full", "wb") as full:
        done = shaper.ends(shaper.words(), full)
        compare("a report on /dev/full", (done.returncode, b"standard output: No space left" in done.stderr), (1, True))
        done = shaper.ends(shaper.words(after="-"), full)
        compare("- on /dev/full", (done.returncode, done.stderr), (1, b"shape: standard output: No space left on device\n"))


def failed_closes_are_told(shaper: Shaper) -> None:
    """What the system couldn't store is told, also if it says so only at the close."""
    done = subprocess.run([shaper.unclosing, *shaper.words()], capture_output=True)
    compare("a close that fails", (done.returncode, done.stdout), (1, b""))
    compare("what is told of it", done.stderr, f"shape: {shaper.after}: Disk quota exceeded\n".encode())


def inputs_are_kept(shaper: Shaper) -> None:
    """OUT is no file that is read: not by its name, nor by another name or a link."""
    files = {name: shaper.folder / f"read.{name}" for name in ("tree", "table", "before")}
    for name, path in files.items():
        shutil.copy(shaper.words()[("tree", "table", "", "before").index(name)], path)
        bytes_before = path.read_bytes()
        hard, soft = path.with_suffix(".hard"), path.with_suffix(".soft")
        os.link(path, hard)
        soft.symlink_to(path)
        for other in (path, path.parent / "." / ".." / path.parent.name / path.name, hard, soft):
            refused(shaper.program, [*shaper.words(**{name: path})[:4], other], f"{other}: it is also {path}, which is read")
            compare(f"bytes of {path.name}", path.read_bytes() == bytes_before, True)
        hard.unlink()
        soft.unlink()
    with files["before"].open("rb") as source:
        done = subprocess.run([shaper.program, *shaper.words(before="-", after=files["before"])], stdin=source, capture_output=True)
    compare("standard input as OUT", (done.returncode, b"it is also standard input, which is read" in done.stderr), (1, True))
    compare("its bytes", files["before"].read_bytes() == shaper.before.read_bytes(), True)


def rates_are_read(shaper: Shaper) -> None:
    """A rate has a unit or none, and what isn't one is refused."""
    shares = run([shaper.program, *shaper.words()])
    for rate in ("8000k", "8M"):
        compare(f"shares at {rate}", run([shaper.program, *shaper.words(rate=rate)]), shares)
    fast = {run([shaper.program, *shaper.words(rate=rate)]) for rate in ("1G", "1000M", "1000000000")}
    compare("shares at 1G", (len(fast), shares in fast), (1, False))
    run([shaper.program, *shaper.words(rate="18446744073709551615")])
    past = ("18446744073709551616", "18446744073709552k", "18446744074G")
    for wrong in ("8x", "", "-1", "+1", " 8", "8 M", "8MM", "8m", "M", "0", "0M", *past):
        shaper.refuses(f"'{wrong}' isn't a rate", rate=wrong)


def devices_are_links(shaper: Shaper) -> None:
    """Each device is a link of its own, and frames stand in OUT in the order in which they left."""
    tree = "a :: Sender(0); b :: Sender(1); p, q :: Queue(9); c :: ToDevice(x); d :: ToDevice(y); b -> q -> d; a -> p -> c;"
    frames = [Frame(0, 1500, version_4(1)), Frame(10, 100, version_4(2)), Frame(10, 200, version_4(2)), Frame(20, 1000, version_4(1))]
    compare("frames of two devices", shaper.counts(tree, "0 * 1\n1 * 2\n", frames), ([2, 2], 0))
    left = [(it.time, it.length) for it in frames_of(shaper.after)]
    compare("what left two links of 8 Mbit/s", left, [(110, 100), (310, 200), (1500, 1500), (2500, 1000)])


def captures_go_to_standard_output(shaper: Shaper) -> None:
    """With OUT - the capture alone stands on standard output, and the report on standard error. So it is with another name of that."""
    shares = shaper.ends(shaper.words()).stdout
    for name in ("-", "/dev/stdout"):
        done = shaper.ends(shaper.words(after=name))
        compare(f"status, and the capture on {name}", (done.returncode, done.stdout == shaper.after.read_bytes()), (0, True))
        compare("the report on standard error", done.stderr, shares)
    other = shaper.folder / "standard.pcap"
    with other.open("wb") as standard:
        compare("the report beside a file", shaper.ends(shaper.words(after=other), standard).stderr, shares)
    compare("that file", other.read_bytes() == shaper.after.read_bytes(), True)


def cut_captures_are_reported(shaper: Shaper) -> None:
    """Of a capture that is cut, what was read is shaped and reported, and then it is told."""
    tree, table = text(shaper, "tree", ONE_SENDER), text(shaper, "table", "0 * *\n")
    last = 16 + len(version_4(5004))
    for missing in (1, last - 17, last - 16, last - 1):
        before = capture(shaper, [Frame(100 * it, 100, version_4(5004)) for it in range(9)])
        before.write_bytes(before.read_bytes()[:-missing])
        done = shaper.ends(shaper.words(tree=tree, table=table, before=before))
        compare(f"status without {missing} bytes", done.returncode, 1)
        compare("report", done.stdout.startswith(b"sender 0: came 8 800, lost 0 0, left 8 800, "), True)
        compare("what is told", f"shape: {before}: it is cut or damaged after 8 frames: ".encode() in done.stderr, True)
        compare("frames of OUT", len(frames_of(shaper.after)), 8)


def files_are_named(shaper: Shaper) -> None:
    """What is wrong with a file is told with its name."""
    wrong = text(shaper, "wrong", "no capture, but long enough to be the header of one")
    other = shaper.folder / "other.pcap"
    other.write_bytes(HEADER[:20] + struct.pack("<I", 105))
    shaper.refuses(f"{wrong}: unknown file format", before=wrong)
    shaper.refuses(f"{other}: its frames are neither Ethernet nor bare IP", before=other)
    for name in ("tree", "table", "before"):
        for path, why in ((shaper.folder, "Is a directory"), (shaper.folder / "none", "No such file or directory")):
            shaper.refuses(f"shape: {path}: " + ("" if (name, path) == ("before", shaper.folder) else why), **{name: path})
    refused(shaper.program, shaper.words(after=shaper.folder), f"{shaper.folder}: Is a directory")


def senders_are_in_the_tree(shaper: Shaper) -> None:
    """A table with a sender that the tree lacks is told before OUT is opened, by the names of both."""
    table = text(shaper, "table", "0 * 1\n9 * *\n")
    shaper.refuses(f"{table}: sender 9 isn't in {shaper.tree}", table=table)


def tables_have_any_length(shaper: Shaper) -> None:
    """A table has any number of lines, of any length, and the wrong one is named."""
    frames = [Frame(0, 100, version_4(5004))]
    lines = [f"0 10.0.{it // 256}.{it % 256} *\n" for it in range(1000)]
    compare("a frame of line 1001", shaper.counts(ONE_SENDER, "".join([*lines, "0 * 5004\n"]), frames), ([1], 0))
    compare("a frame of a long line", shaper.counts(ONE_SENDER, f"{' ' * 999}0 * 5004 # {'comment ' * 999}\n", frames), ([1], 0))
    compare("a last line without its end", shaper.counts(ONE_SENDER, "0 * 5004", frames), ([1], 0))
    shaper.refuses("line 1001 isn't", table=text(shaper, "table", "".join([*lines, "x\n"])))
    for wrong in ("1234510.0.0.1 *\n", "0 * *\0\n", "+0 * *\n"):
        shaper.refuses("line 1 isn't", table=text(shaper, "table", wrong))


HOPS, ROUTING, FRAGMENT, TARGET = 0, 43, 44, 60


def extensions_are_walked(shaper: Shaper) -> None:
    """Ports are found behind extension headers of IPv6, but not in later fragments, nor in frames that are cut."""
    chains: list[list[int]] = [[], [HOPS], [ROUTING], [TARGET], [FRAGMENT], [HOPS, TARGET, ROUTING, FRAGMENT, TARGET]]
    found = [Frame(0, 500, version_6(it, 5004)) for it in chains]
    compare("frames with ports", shaper.counts(ONE_SENDER, "0 * 5004\n", found), ([len(found)], 0))
    cut = [Frame(0, 500, version_6([HOPS, FRAGMENT], 5004)[:size]) for size in range(54, 82)]
    none = [*cut, Frame(0, 500, version_6([FRAGMENT], 5004, 1)), Frame(0, 500, version_6([TARGET] * 40, 5004))]
    compare("frames without", shaper.counts(ONE_SENDER, "0 * 5004\n", none), ([0], len(none)))
    compare("frames without, which have addresses", shaper.counts(ONE_SENDER, "0 :: *\n", none), ([len(none)], 0))


def frames_without_length_are_left_out(shaper: Shaper) -> None:
    """A frame whose length is 0 is left out and counted, and those around it are shaped."""
    frames = [Frame(0, 100, version_4(5004)), Frame(1, 0, version_4(5004)), Frame(2, 100, version_4(5004))]
    compare("frames around one of length 0", shaper.counts(ONE_SENDER, "0 * *\n", frames), ([2], 1))


EDGES = (
    full_disks_are_told,
    failed_closes_are_told,
    inputs_are_kept,
    rates_are_read,
    devices_are_links,
    captures_go_to_standard_output,
    cut_captures_are_reported,
    files_are_named,
    senders_are_in_the_tree,
    tables_have_any_length,
    extensions_are_walked,
    frames_without_length_are_left_out,
)


# A close that fails as it does where a file system finds out late that there is no room.
UNCLOSING = """#include <errno.h>
int __wrap_close(int file);
int __wrap_close(int file) { return file < 0 ? 0 : (errno = EDQUOT, -1); }
"""


def unclosing(setting: Setting, compiler: str) -> Path:
    """A shaper whose calls of close fail."""
    folder = setting.made / "unclosing"
    folder.mkdir()
    source = folder / "close.c"
    source.write_text(UNCLOSING)
    return built(replace(setting, made=folder), compiler, str(source), "-Wl,--wrap=close")


def made(setting: Setting) -> Shaper:
    """A shaper, and a capture for it."""
    folder = setting.made / "edges"
    folder.mkdir()
    compiler = next(filter(shutil.which, COMPILERS), None)
    if compiler is None:
        raise LeftOut("neither gcc nor clang is there")
    example = setting.root / "examples" / "capture"
    run([python(), example / "make", folder / "before.pcap"])
    program = built(replace(setting, made=folder), compiler)
    tree, table = example / "uplink.click", example / "senders.table"
    return Shaper(program, unclosing(setting, compiler), folder, tree, table, folder / "before.pcap")


def edges_hold(setting: Setting) -> str:
    """Each of these holds."""
    shaper = made(setting)
    for it in EDGES:
        try:
            it(shaper)
        except Failed as why:
            raise Failed(f"{it.__name__}: {why}") from None
    return f"{len(EDGES)} of them"


CHECKS = [Check("edges of the shaper of captures", edges_hold)]
