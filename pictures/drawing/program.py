"""The program, which is looked for on the PATH."""
import shutil
import subprocess

from drawing.model import Wrong
from drawing.progress import tell


def is_there() -> bool:
    """Whether there is a clickpull."""
    return shutil.which("clickpull") is not None


def answer(of: str, *words: str) -> str:
    """What the program writes. A fault is told as one of this file."""
    if not is_there():
        raise Wrong("there is no clickpull on the PATH, which is needed")
    tell(f"clickpull {' '.join(words)}")
    done = subprocess.run(["clickpull", *words], capture_output=True, text=True)
    if done.returncode:
        raise Wrong(f"{of}: {done.stderr.strip()}")
    return done.stdout
