"""Compares what the repetition of a record prints with what the calls on a live router returned. It stands outside what is proved."""
from collections.abc import Iterator
from pathlib import Path

from of_library.checks import run
from of_library.model import ACCEPTED, EVICTED, NONE, OK, REFUSED
from of_library.replayed import same

# A program that carries out a script over a tree: the words before these two.
Program = list[str | Path]

# Moments of a record are below this.
END_OF_RECORDED_MOMENTS = 1 << 40

# Calls that are recorded, and how many words they print of each packet.
WORDS = {"take": 7, "take_in": 7, "take_what_fits": 7, "pull": 3, "pull_many": 3, "drain": 4}


def is_done_again(program: Program, tree: Path, record: Path, calls: list[str], answers: list[str]) -> None:
    """Fails unless a program that repeats a record prints what the calls returned, which are as tests/c/live_calls.c has them."""
    printed = run([*program, tree, record]).splitlines(keepends=True)
    wanted = of_record(calls, answers, tree.read_text().count("ToDevice") > 1)
    same(record, "".join(it for it in printed if not it.endswith(": none\n")), "".join(f"{it}\n" for it in wanted))


def of_record(calls: list[str], answers: list[str], are_named: bool) -> Iterator[str]:
    """What a program prints of the record of calls that gave these answers, but for pulls that emitted nothing: devices may be named.

    The record ends before the first pull at a moment that it can't have.
    """
    for call, answer in zip(calls, answers):
        word, *numbers = call.split()
        _, status, *words = answer.split()
        if word in ("pull", "pull_many") and int(status) in (OK, NONE) and int(numbers[1]) >= END_OF_RECORDED_MOMENTS:
            return
        for it in pieces(words, WORDS[word]) if word in WORDS else ():
            yield sent(it) if word.startswith("take") else emitted(it, numbers, are_named)


def pieces(words: list[str], size: int) -> Iterator[list[str]]:
    """What a call filled in, so many words each. Before it stands how many elements there are."""
    return (words[at : at + size] for at in range(1, len(words), size))


def sent(taken: list[str]) -> str:
    """What a program prints of a packet that was taken."""
    packet, length, _, outcome, evicted, *_ = taken
    became = {ACCEPTED: "accepted", REFUSED: "refused", EVICTED: f"accepted evicted {evicted}"}
    return f"{packet} {length} {became[int(outcome)]}"


def emitted(printed: list[str], numbers: list[str], is_named: bool) -> str:
    """What a program prints of a packet that was emitted. A drain prints its moment, and a pull is called with it."""
    *moment, packet, length, _ = printed
    device = f" {numbers[0]}" if is_named else ""
    return f"pull {(moment or numbers[1:])[0]}{device}: {packet} {length}"
