"""The law of a DRRSched, over the order in which jobs were handed over. It stands outside what is proved.

The law is `SharesByDeficit` in crates/clk_sched/specs/Service.antt, which `runs_share_out` proves of every run of a tree. Two of its
clauses, over an unbroken range of visits in which inputs always had packets:

- `arrivals_near`: the turns of two inputs differ by 1 at most.
- `bytes_near`: the bytes of an input differ from its quantum times its turns by at most the quantum and 65,534.

Here each quantum is at least the largest size. So each turn of an input that has jobs hands over one or more, and the turns are the longest
runs of jobs of one tenant.
"""
from collections.abc import Iterator, Mapping, Sequence
from itertools import combinations

# The greatest length of a packet, in bytes.
MOST_LENGTH = 65_535

# A job that was handed over: its tenant and its size.
Handed = tuple[str, int]


def while_all_have_jobs(order: Sequence[Handed], waiting: Mapping[str, int]) -> Sequence[Handed]:
    """The beginning of an order in which each tenant had a job, if so many jobs of each waited at first and none came."""
    left = dict(waiting)
    for place, (tenant, _) in enumerate(order):
        left[tenant] -= 1
        if not left[tenant]:
            return order[: place + 1]
    raise ValueError("the order ends before the jobs of a tenant do")


def spread(values: Sequence[int]) -> int:
    """By how much two of some values differ at most."""
    return max(values) - min(values)


def faults(order: Sequence[Handed], quanta: Mapping[str, int]) -> Iterator[str]:
    """Where the order breaks the law, if each tenant had a job throughout."""
    turns = {it: [0] for it in quanta}
    ahead = {it: [0] for it in quanta}
    previous = None
    for tenant, size in order:
        for it in quanta:
            begins = it == tenant != previous
            turns[it].append(turns[it][-1] + begins)
            ahead[it].append(ahead[it][-1] + size * (it == tenant) - quanta[it] * begins)
        previous = tenant
    # Values are taken between any two jobs, so that their spread is the greatest difference over all unbroken ranges.
    for one, other in combinations(quanta, 2):
        if (found := spread([a - b for a, b in zip(turns[one], turns[other])])) > 1:
            yield f"the turns of {one} and {other} differ by {found}"
    for it, quantum in quanta.items():
        if (found := spread(ahead[it])) > quantum + MOST_LENGTH - 1:
            yield f"the bytes of {it} differ by {found} from {quantum} times its turns"
