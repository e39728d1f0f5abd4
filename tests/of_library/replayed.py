"""The examples, replayed through the library by C and by Python. It stands outside what is proved."""
import threading
from pathlib import Path

from of_library.checks import Check, Failed, Setting, run
from of_library.compiled import C, program_of
from of_library.module import environment, python

# Several checks want the replaying program, and one of them makes it.
BEING_MADE = threading.Lock()


def replayer(setting: Setting) -> Path:
    """The program that replays scripts."""
    program = setting.made / "replay"
    with BEING_MADE:
        return program if program.exists() else program_of(setting, "cc", [*C, setting.root / "tests" / "c" / "replay.c"], program.name)


def examples(setting: Setting) -> list[Path]:
    """The trees of the examples that have a script."""
    return [it.with_suffix(".click") for it in sorted((setting.root / "examples").glob("*.script"))]


def same(tree: Path, found: str, wanted: str) -> None:
    """Fails at the first line in which two answers differ."""
    if found == wanted:
        return
    lines, others = found.splitlines(), wanted.splitlines()
    for number, (line, other) in enumerate(zip(lines, others), 1):
        if line != other:
            raise Failed(f"{tree}: line {number} is {line!r}, where it has to be {other!r}")
    raise Failed(f"{tree}: there are {len(lines)} lines, where there have to be {len(others)}")


def as_recorded(script: Path) -> str:
    """A script as a record has it: one blank between words, no blank lines, and no number of the first device."""
    lines = filter(None, map(str.split, script.read_text().splitlines()))
    return "".join(" ".join(it[:2] if it[0] == "pull" and it[2:] == ["0"] else it) + "\n" for it in lines)


def agree(setting: Setting, language: str, program: list[str | Path], more: dict[str, str]) -> str:
    """Each example prints what it is said to, and the record of it is its script."""
    trees = examples(setting)
    for it in trees:
        script, record = it.with_suffix(".script"), setting.made / f"{it.stem}.{language}.record"
        same(it, run([*program, it, script, record], more), it.with_suffix(".out").read_text())
        same(script, record.read_text(), as_recorded(script))
    return f"{len(trees)} of them, with their records"


def by_c(setting: Setting) -> str:
    """The examples, through C."""
    return agree(setting, "c", setting.command(replayer(setting)), {})


def by_python(setting: Setting) -> str:
    """The examples, through Python."""
    return agree(setting, "python", [python(), setting.root / "python" / "tests" / "replay.py"], environment(setting))


CHECKS = [Check("the examples, through C", by_c), Check("the examples, through Python", by_python)]
