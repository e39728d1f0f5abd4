"""The examples, with what the program says of them: tests know that of pictures/tests/kept/, where it isn't there."""
import io
import math
import os
from contextlib import redirect_stderr, redirect_stdout
from dataclasses import dataclass
from functools import cache
from pathlib import Path
from unittest.mock import patch

from drawing.__main__ import main

PICTURES = Path(__file__).resolve().parent.parent
EXAMPLES = PICTURES.parent / "examples"
KEPT = PICTURES / "tests" / "kept"


@dataclass(frozen=True)
class Example:
    """The files of an example."""

    name: str

    def file(self, kind: str) -> Path:
        """One of its files: click and csv as the program writes them, and out and script."""
        kept = KEPT / f"{self.name}.{kind}"
        return kept if kept.exists() else EXAMPLES / f"{self.name}.{kind}"

    def __str__(self) -> str:
        return self.name


ALL = [Example(name) for name in sorted({it.stem for folder in (EXAMPLES, KEPT) for it in folder.glob("*.click")})]
SCRIPTS = [it for it in ALL if it.file("script").exists()]


# a PATH on which there is no clickpull
BARE = "/usr/bin:/bin"


@dataclass(frozen=True)
class Done:
    """What a command came to."""

    status: int
    out: str
    err: str


@cache
def draw(*words: str | Path | int, path: str = BARE) -> Done:
    """What `draw` does with these words, in this process. It says nothing of its progress, however slow the machine is."""
    out, err = io.StringIO(), io.StringIO()
    with patch.dict(os.environ, PATH=path), patch("drawing.progress.PATIENCE", math.inf), redirect_stdout(out), redirect_stderr(err):
        try:
            status = main([str(it) for it in words])
        except SystemExit as it:
            status = int(it.code or 0)
    return Done(status, out.getvalue(), err.getvalue())


def drawn(*words: str | Path | int) -> str:
    """The picture that is drawn without the program."""
    done = draw(*words)
    assert (done.status, done.err) == (0, "")
    return done.out
