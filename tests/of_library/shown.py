"""The programs that docs/LIBRARY.md shows, built and run. It stands outside what is proved."""
import re
import sys
from collections.abc import Callable
from pathlib import Path

from of_library.checks import Check, Failed, Setting, compare, need, run
from of_library.compiled import WARNINGS, program_of
from of_library.module import environment
from of_library.replayed import replayer
from of_library.rusted import run_program


def all_shown(setting: Setting, part: str, language: str) -> list[tuple[str, str]]:
    """The programs of a part of the page, each with what the page says that it prints."""
    text = (setting.root / "docs" / "LIBRARY.md").read_text().partition(f"\n## {part}\n")[2].partition("\n## ")[0]
    found = re.findall(rf"```{language}\n(.*?)```\n.*?```\n(.*?)```", text, re.DOTALL)
    if not found:
        raise Failed(f"docs/LIBRARY.md, {part}: has no program with its answer")
    return found


def shown(setting: Setting, part: str, language: str, place: int = 0) -> tuple[str, str]:
    """The program at a place of a part of the page, counted from 0, and what the page says that it prints."""
    found = all_shown(setting, part, language)
    if place >= len(found):
        raise Failed(f"docs/LIBRARY.md, {part}: has no program {place} with its answer")
    return found[place]


def compiled(part: str, language: str, compiler: str, standard: str, place: int = 0) -> Callable[[Setting], str]:
    """A program is built without a warning, and prints what the page says."""

    def check(setting: Setting) -> str:
        program, answer = shown(setting, part, language, place)
        source = setting.made / f"shown_{place}.{language}"
        source.write_text(program)
        made = program_of(setting, compiler, [standard, "-pthread", *WARNINGS, source], f"shown_{language}_{place}")
        compare(f"what the program in {language} prints", setting.run(made), answer)
        return f"{len(program.splitlines())} lines"

    return check


def of_threads(setting: Setting, part: str, name: str) -> tuple[Path, str, str]:
    """A program of examples/threads, built, what a part of the page shows of it, and what the page says that it prints."""
    parts, answer = shown(setting, part, "c")
    source = setting.root / "examples" / "threads" / f"{name}.c"
    for it in parts.split("\n\n"):
        if it.strip("\n") not in source.read_text():
            raise Failed(f"docs/LIBRARY.md shows what isn't in {source}:\n{it}")
    return program_of(setting, "cc", ["-std=c11", "-pthread", *WARNINGS, source], name), parts, answer


def threads_are_right(setting: Setting) -> str:
    """What the page shows of a program on threads stands in it, and the program prints what the page says."""
    program, parts, answer = of_threads(setting, "Producers on threads", "first")
    compare("what the program on threads prints", setting.run(program), answer)
    return f"{len(parts.splitlines())} lines"


def records_are_right(setting: Setting) -> str:
    """What the page shows of a program that records its run stands in it, and the record ends in the report that the page has."""
    program, _, answer = of_threads(setting, "Records", "recorded")
    tree, record = setting.root / "examples" / "threads" / "recorded.click", setting.made / "run.script"
    record.write_text(setting.run(program, tree))
    printed = setting.run(replayer(setting), tree, record)
    compare("what the record ends in", "".join(printed.splitlines(keepends=True)[-2:]), answer)
    return f"{len(printed.splitlines())} lines"


def python_is_right(setting: Setting) -> str:
    """Each program in Python prints what the page says."""
    lines = 0
    for part, count in (("In Python", 2), ("Coming from Click", 2)):
        programs = all_shown(setting, part, "python")
        compare(f"programs in the part {part}", len(programs), count)
        for program, answer in programs:
            compare(f"what a program of {part} prints", run([sys.executable, "-c", program], environment(setting)), answer)
            lines += len(program.splitlines())
    return f"{lines} lines"


def rust_is_right(setting: Setting) -> str:
    """The program in Rust builds without a warning, and prints what the page says."""
    need("cargo")
    program, answer = shown(setting, "In Rust", "rust")
    compare("what the program in Rust prints", run_program(setting, program), answer)
    return f"{len(program.splitlines())} lines"


CHECKS = [
    Check("C in docs/LIBRARY.md", compiled("In C", "c", "cc", "-std=c11")),
    Check("threads in docs/LIBRARY.md", threads_are_right),
    Check("records in docs/LIBRARY.md", records_are_right),
    Check("C++ in docs/LIBRARY.md", compiled("In C++", "cpp", "c++", "-std=c++17")),
    Check("C++ on threads in docs/LIBRARY.md", compiled("In C++", "cpp", "c++", "-std=c++17", 1)),
    Check("Python in docs/LIBRARY.md", python_is_right),
    Check("Rust in docs/LIBRARY.md", rust_is_right),
]
