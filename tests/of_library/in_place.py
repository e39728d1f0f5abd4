"""Compares the C that packaging has for ARM64 with the toolchain's for x86-64, in whose place it stands. It stands outside what is proved."""
import re
from dataclasses import replace
from pathlib import Path

from making.built import PROCESS
from making.library import HEAPS
from making.targets import ARM64
from of_library.checks import Check, LeftOut, Setting, compare, run
from of_library.compiled import C, WRAPPED, heap
from of_library.replayed import same

# Words of a command: none, and such as fit into a buffer of 16 bytes and don't.
WORDS = ("", "a", "two words", "123456789012345", "1234567890123456", "12345678901234567", "\u00fcber")


def answers(setting: Setting, source: str, of: Path, *words: str) -> str:
    """What a program of one source prints, which is linked with a source or an archive, and gets these words."""
    program = setting.made / f"{Path(source).stem}-{of.stem}"
    run([setting.tool("cc"), *C, *WRAPPED, setting.root / "tests" / "c" / source, of, "-o", program])
    return setting.run(program, *words)


def heaps_agree(setting: Setting) -> str:
    """The heap for ARM64, compiled for this machine or that one, makes the requests of the toolchain's for x86-64, and returns the same."""
    wanted = answers(replace(setting, machine=None), "heap.c", heap())
    same(HEAPS[ARM64], answers(setting, "heap.c", HEAPS[ARM64]), wanted)
    return f"{wanted.count('(')} requests"


def processes_agree(setting: Setting) -> str:
    """A program for ARM64 gets the words and the errors that one for x86-64 gets."""
    toolchain = heap().with_name("libos_c.a")
    if not toolchain.exists():
        raise LeftOut("libos_c.a is missing beside rt")
    wanted = answers(replace(setting, machine=None), "process.c", toolchain, *WORDS)
    compare("lines with a word that fits into 16 bytes", len(re.findall(r"in 16 bytes: \d", wanted)), len(WORDS) - 1)
    same(PROCESS, answers(setting, "process.c", PROCESS, *WORDS), wanted)
    return f"{wanted.count(chr(10))} lines"


CHECKS = [Check("the heap for ARM64", heaps_agree), Check("words and errors for ARM64", processes_agree)]
