"""Jobs that tests hand to a cluster. Workers import this file. It stands outside what is proved."""
import asyncio
import os
import signal
import time
from pathlib import Path


def echo(token: str, seconds: float, folder: str) -> str:
    """Notes that it was started, takes its time, and returns its token."""
    with open(Path(folder) / token, "a") as notes:
        notes.write("started\n")
    time.sleep(seconds)
    return token


def fail_at_first(path: str) -> str:
    """Raises when it runs for the first time."""
    if not os.path.exists(path):
        Path(path).touch()
        raise OSError("it was the first time")
    return path


def seem_cancelled() -> None:
    """Raises what a task of asyncio raises when it is cancelled."""
    raise asyncio.CancelledError("by the job")


def kill_worker() -> None:
    """Kills the process that runs it."""
    os.kill(os.getpid(), signal.SIGKILL)
