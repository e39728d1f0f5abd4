#!/usr/bin/env python3
"""Makes the scripts of the benchmark: python3 bench/scripts.py LINES > script

A script has exactly LINES lines, and each second of them, rounded down, is a pull. It is the same each time.
"""
import sys

# A block has as many sends as pulls, in mixed order, so that the queues fill up and run empty now and then.
BLOCK = 16
# The least and the greatest length of a packet, in bytes.
SHORTEST, LONGEST = 40, 1500
# The first moment. From here on moments have ten digits, so that a line is as long in a long script as in a short one.
START = 1_000_000_000


def numbers():
    """Gives numbers below 2^31 without end, by a linear congruence, so that no version of Python changes them."""
    state = 1
    while True:
        state = (state * 6364136223846793005 + 1442695040888963407) % 2**64
        yield state >> 33


def lines(count):
    """Gives the lines of the script of so many lines, each with its line feed."""
    some, moment = numbers(), START
    for start in range(0, count, BLOCK):
        size = min(BLOCK, count - start)
        pulls = size // 2
        for left in range(size, 0, -1):
            if next(some) % left < pulls:
                pulls -= 1
                moment += next(some) % 100
                # Now and then a moment lies before the greatest so far, as a late clock's would.
                late = next(some) % 500 if next(some) % 16 == 0 else 0
                yield f"pull {max(START, moment - late)}\n"
            else:
                length = SHORTEST + next(some) % (LONGEST - SHORTEST + 1)
                yield f"send {next(some) % 2} {length}\n"


if __name__ == "__main__":
    if len(sys.argv) != 2 or not sys.argv[1].isdecimal():
        sys.exit("usage: scripts.py LINES > script")
    sys.stdout.writelines(lines(int(sys.argv[1])))
