"""How the example for DPDK is built and started. It stands outside what is proved."""
import os
import shlex
import subprocess
from collections.abc import Sequence
from dataclasses import dataclass
from pathlib import Path

from of_library.checks import LeftOut, need, run

WARNINGS = ["-Wall", "-Wextra", "-Wpedantic", "-Wconversion", "-Wshadow", "-Werror"]

# What the example builds from the shaper of captures.
SHARED = ("ends.c", "rate.c", "table.c", "texts.c", "told.c")

# What of the example is this library's, and not the peer's.
OURS = ("recording.c", "scheduler.c")

# Words for DPDK: it uses neither huge pages nor a network card, and shares no files with other programs.
MACHINE = ["--no-huge", "-m", "256", "--no-pci", "--no-shconf", "--no-telemetry", "--log-level=error"]


@dataclass(frozen=True)
class Sources:
    """The files of a program, and where its headers are."""

    files: list[Path]
    headers: list[Path]

    @staticmethod
    def of_library(root: Path) -> "Sources":
        """The example."""
        example, capture = root / "examples" / "dpdk", root / "examples" / "capture"
        return Sources([*sorted(example.glob("*.c")), *(capture / it for it in SHARED)], [root / "include", example, capture])

    @staticmethod
    def of_peer(root: Path) -> "Sources":
        """The same program over rte_sched."""
        own = Sources.of_library(root)
        return Sources([*(it for it in own.files if it.name not in OURS), root / "bench" / "dpdk" / "rte_sched.c"], own.headers)


def built(program: Path, compiler: str, sources: Sources, archives: Sequence[str | Path]) -> Path:
    """A program, of its sources, these archives and words for the linker. DPDK's own headers give warnings."""
    need(compiler, "pkg-config")
    if subprocess.run(["pkg-config", "--exists", "libdpdk"]).returncode != 0:
        raise LeftOut("libdpdk-dev is missing")
    flags = shlex.split(run(["pkg-config", "--cflags", "libdpdk"]).replace("-I", "-isystem "))
    libraries = shlex.split(run(["pkg-config", "--libs", "libdpdk"]))
    headers = [word for it in sources.headers for word in ("-I", str(it))]
    run([compiler, "-std=gnu11", "-O2", "-gdwarf-4", *WARNINGS, *flags, *headers, *sources.files, "-o", program, *archives, *libraries])
    return program


def cores(count: int) -> str:
    """The word for DPDK that gives it so many threads, which may run on any processor that this program may use."""
    processors = ",".join(map(str, sorted(os.sched_getaffinity(0))))
    return f"--lcores=(0-{count - 1})@({processors})"
