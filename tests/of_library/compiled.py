"""The shared library, and the tests in C and C++. It stands outside what is proved."""
import shutil
from collections.abc import Callable, Sequence
from pathlib import Path

from of_library.checks import Check, Failed, LeftOut, Setting, compare, need, run

WARNINGS = ["-Wall", "-Wextra", "-Wpedantic", "-Wconversion", "-Wshadow", "-Werror"]
# valgrind doesn't read what clang writes for debuggers unless it is told to write it as of old.
BUILT = ["-O1", "-gdwarf-4", *WARNINGS]
C = ["-std=c11", "-pthread", *BUILT]
CPP = ["-std=c++17", "-pthread", *BUILT]

# How the tests of C++ are built: as a program that uses the headers may be. Only the first runs under valgrind, which runs one thread at a time.
VARIANTS = {
    "C++17": CPP,
    "C++17 that checks the standard library": [*CPP, "-D_GLIBCXX_DEBUG"],
    "C++20": ["-std=c++20", *CPP[1:]],
}

# The table of cases that all bindings share.
CASES = Path("tests", "bindings", "cases")

# How many packets each sender on a thread sends in the tests of C++, alone and under valgrind.
PACKETS, FEW = "40000", "400"

# The compilers of C, each with that of C++ beside it.
COMPILERS = {"gcc": "g++", "clang": "clang++"}

# Programs that stand alone, and so are no part of the tests of calls.
ALONE = ("replay.c", "memory.c", "sleeping.c", "at_length.c", "live_calls.c", "live_threads.c", "cases.c", "heap.c", "process.c")

# The requests for memory that tests/c/memory.c answers.
WRAPPED = [f"-Wl,--wrap={it}" for it in ("malloc", "calloc", "realloc", "free")]


def heap() -> Path:
    """The toolchain's archive that takes memory from the C library, which a program of C links beside the library."""
    rt = shutil.which("rt")
    if rt is None:
        raise LeftOut("rt, beside which liblibc_c.a is, is missing")
    path = Path(rt).resolve().parent.parent / "c" / "liblibc_c.a"
    if not path.exists():
        raise LeftOut("liblibc_c.a is missing beside rt")
    return path


def libraries(setting: Setting) -> list[Path]:
    """What a program is linked with: the archive as it is built, and the toolchain's heap. For another machine, the installed archive."""
    return [setting.installed] if setting.machine else [setting.archive, heap()]


def program_of(setting: Setting, compiler: str, words: Sequence[str | Path], name: str) -> Path:
    """A program of this name over the archive, which a compiler builds with these words."""
    program = setting.made / name
    run([setting.tool(compiler), *words, "-I", setting.include, "-o", program, *libraries(setting)])
    return program


def tests_in_c(setting: Setting) -> list[Path]:
    """The sources of the tests of calls."""
    return sorted(it for it in (setting.root / "tests" / "c").glob("*.c") if it.name not in ALONE)


def tests_of_cpp(setting: Setting, compiler: str, variant: str) -> Path:
    """The tests of C++ that a compiler builds in this way, over the archive."""
    sources = sorted((setting.root / "tests" / "cpp").glob("*.cpp"))
    return program_of(setting, compiler, [*VARIANTS[variant], *sources], f"calls-{compiler}-{list(VARIANTS).index(variant)}")


# Valgrind's memcheck. It runs one thread at a time, and lets them take turns: else one that spins may never let another run.
MEMCHECK = ["valgrind", "-q", "--fair-sched=try", "--error-exitcode=9", "--leak-check=full"]

# The same, where a leak of any kind is told.
ANY_LEAK = [*MEMCHECK, "--show-leak-kinds=all"]


def has_valgrind(setting: Setting) -> bool:
    """Whether valgrind is there, and runs the programs that are built."""
    return setting.machine is None and shutil.which("valgrind") is not None


def clean(setting: Setting, program: Path, words: Sequence[str | Path] = (), checked: Sequence[str | Path] | None = None) -> str:
    """Runs tests with these words, alone and then, with the words that are `checked`, under valgrind where it is there."""
    told = setting.run(program, *words).strip()
    if setting.machine:
        return told
    if not has_valgrind(setting):
        return f"{told}, without valgrind, which is missing"
    with_words = words if checked is None else checked
    run([*ANY_LEAK, program, *with_words])
    return f"{told}, valgrind finds no error and no leak"


def in_c(compiler: str) -> Callable[[Setting], str]:
    """The tests of C by this compiler."""
    return lambda setting: clean(setting, program_of(setting, compiler, [*C, *tests_in_c(setting)], f"calls-{compiler}"))


def in_cpp(compiler: str, variant: str, packets: str = PACKETS) -> Callable[[Setting], str]:
    """The tests of C++ by this compiler, built in this way, with so many packets of each sender on a thread."""

    def check(setting: Setting) -> str:
        program, cases = tests_of_cpp(setting, compiler, variant), setting.root / CASES
        if VARIANTS[variant] is CPP:
            return clean(setting, program, [cases, packets], [cases, FEW])
        return setting.run(program, cases, packets).strip()

    return check


def cases_in_c(setting: Setting) -> str:
    """The table of cases, by the calls of C themselves."""
    program = program_of(setting, "cc", [*C, setting.root / "tests" / "c" / "cases.c"], "cases")
    return clean(setting, program, [setting.root / CASES])


def at_their_end(compiler: str) -> Callable[[Setting], str]:
    """An offer of C++ for a sender that has no numbers left, which a function of the test's says in place of the library."""

    def check(setting: Setting) -> str:
        source = setting.root / "tests" / "cpp" / "alone" / "at_end.cpp"
        return clean(setting, program_of(setting, compiler, [*CPP, source], f"at-end-{compiler}"))

    return check


def values_by_thread_sanitizer(compiler: str) -> Callable[[Setting], str]:
    """The table in which live routers of C++ keep values, without the library, whose exchanges ThreadSanitizer doesn't see."""

    def check(setting: Setting) -> str:
        need(compiler)
        source, program = setting.root / "tests" / "cpp" / "alone" / "value_table.cpp", setting.made / f"values-{compiler}"
        try:
            run([compiler, *CPP, "-fsanitize=thread", "-I", setting.include, source, "-o", program])
        except Failed as it:
            if "tsan" in str(it):
                raise LeftOut(f"the ThreadSanitizer of {compiler} is missing") from None
            raise
        try:
            return run([program, PACKETS + "0"]).strip()
        except Failed as it:
            if "unexpected memory mapping" in str(it):
                raise LeftOut("ThreadSanitizer can't map its memory here") from None
            raise

    return check


def compilers(setting: Setting) -> list[str]:
    """The compilers of C that are there."""
    found = [it for it in COMPILERS if shutil.which(setting.machine.tool(it) if setting.machine else it)]
    if not found:
        raise LeftOut("neither gcc nor clang is there")
    return found


# What a program that includes a header may ask of it besides.
STRICT = ["-Wsign-conversion", "-Wcast-qual", "-Wcast-align", "-Wundef", "-Wformat=2"]
STRICT_CPP = [*STRICT, "-Wold-style-cast", "-Wnon-virtual-dtor", "-Woverloaded-virtual"]


def headers_stand_alone(setting: Setting) -> str:
    """Each header is the whole of what a program includes, and brings no warning with it."""
    made = []
    for c, cpp in COMPILERS.items():
        for compiler, header, ending, flags in (
            (c, "clickpull.h", "c", [*C, *STRICT]),
            (cpp, "clickpull.h", "cpp", [*CPP, *STRICT_CPP]),
            *((cpp, it.name, "cpp", [*CPP, *STRICT_CPP]) for it in sorted(setting.include.glob("*.hpp"))),
        ):
            if shutil.which(compiler) is None:
                continue
            source = setting.made / f"alone-{compiler}-{header}.{ending}"
            source.write_text(f'#include "{header}"\n#include "{header}"\nint main(void) {{ return 0; }}\n')
            run([compiler, *flags, "-I", setting.include, "-fsyntax-only", source])
            made.append(f"{compiler} {header}")
    if not made:
        raise LeftOut("no compiler is there")
    return ", ".join(made)


def over_the_shared_library(setting: Setting) -> str:
    """The tests of C run over the shared library as over the archive."""
    program = setting.made / "calls-shared"
    words: list[str | Path] = [*C, "-I", setting.include, *tests_in_c(setting), "-o", program]
    run([setting.tool("cc"), *words, setting.shared, f"-Wl,-rpath,{setting.made}"])
    return setting.run(program).strip()


def memory_is_refused(setting: Setting) -> str:
    """Each request for memory is refused in turn."""
    words: list[str | Path] = [*C, *WRAPPED, setting.root / "tests" / "c" / "memory.c"]
    told = [setting.run(program_of(setting, it, words, f"memory-{it}")).strip() for it in compilers(setting)]
    compare("requests by compiler", len(set(told)), 1)
    if told[0].startswith("0 "):
        raise Failed("no request was refused")
    return told[0]


CHECKS = [
    Check("the headers stand alone", headers_stand_alone),
    *(Check(f"the calls, by {it}", in_c(it)) for it in COMPILERS),
    Check("the table of cases, in C", cases_in_c),
    *(Check(f"{variant}, by {it}", in_cpp(it, variant)) for it in COMPILERS.values() for variant in VARIANTS),
    *(Check(f"numbers at their end in C++, by {it}", at_their_end(it)) for it in COMPILERS.values()),
    *(Check(f"values on threads, by {it}", values_by_thread_sanitizer(it)) for it in COMPILERS.values()),
    Check("the calls, over the shared library", over_the_shared_library),
    Check("memory that is refused", memory_is_refused),
]
