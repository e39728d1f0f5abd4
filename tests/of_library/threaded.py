"""Live routers on threads: the example, wake-ups, and many packets. It stands outside what is proved."""
import re
from collections.abc import Callable
from pathlib import Path

from of_library.checks import Check, Failed, Setting, compare, run
from of_library.compiled import ANY_LEAK, C, COMPILERS, compilers, has_valgrind, program_of

# The two ways to wait of examples/threads.
WAITERS = ("cond", "eventfd")

# How many packets tests/c/at_length.c sends under valgrind, which runs one thread at a time.
FEW = 4000


def built(setting: Setting, compiler: str, source: str, waiter: str | None = None) -> Path:
    """A program of one source, with a waiter if it wants one."""
    example = setting.root / "examples" / "threads"
    sources = [setting.root / source, *([example / f"waiter_{waiter}.c"] if waiter else [])]
    return program_of(setting, compiler, [*C, "-I", example, *sources], f"{Path(source).stem}-{waiter or 'alone'}-{compiler}")


def checked(program: Path, *words: str) -> str:
    """What a program prints under valgrind's memcheck. Its helgrind and drd see no synchronization in a plain xchg, so they can't help."""
    return run([*ANY_LEAK, program, *words])


def told(setting: Setting, printed: str) -> str:
    """What is told of a program that valgrind was to check too."""
    return printed.strip() + ("" if setting.machine else ", and by valgrind" if has_valgrind(setting) else "; valgrind is missing")


def example(setting: Setting) -> str:
    """The example prints what its page says, with either waiter."""
    folder = setting.root / "examples" / "threads"
    wanted = (folder / "senders.out").read_text()
    compare("README's output", wanted in (folder / "README.md").read_text(), True)
    for waiter in WAITERS:
        for compiler in compilers(setting):
            program = built(setting, compiler, "examples/threads/senders.c", waiter)
            compare("what the senders come to", setting.run(program), wanted)
        if has_valgrind(setting):
            compare("what the senders come to", checked(program), wanted)
    return told(setting, "with either waiter")


def no_wake_up_is_lost(setting: Setting) -> str:
    """A consumer that sleeps whenever it finds nothing is woken for each packet."""
    for waiter in WAITERS:
        for compiler in compilers(setting):
            program = built(setting, compiler, "tests/c/sleeping.c", waiter)
            setting.run(program)
        if has_valgrind(setting):
            checked(program, "0")
    return told(setting, "with either waiter")


def at_length(compiler: str) -> Callable[[Setting], str]:
    """Many packets on up to eight threads, each of which is compared."""

    def check(setting: Setting) -> str:
        program = built(setting, compiler, "tests/c/at_length.c")
        printed = setting.run(program)
        if re.fullmatch(r"\d{6,} packets\n", printed) is None:
            raise Failed(f"it printed {printed!r}")
        if has_valgrind(setting):
            checked(program, str(FEW))
        return told(setting, printed)

    return check


CHECKS = [
    Check("the example of threads", example),
    Check("no wake-up is lost", no_wake_up_is_lost),
    *(Check(f"many packets on threads, by {it}", at_length(it)) for it in COMPILERS),
]
