"""Tests that the law over the order of jobs takes right orders and no others. They stand outside what is proved."""
import random
from collections.abc import Mapping, Sequence

import pytest

from law import MOST_LENGTH, Handed, faults, while_all_have_jobs

QUANTA = {"physics": 200_000, "biology": 100_000, "guests": 100_000}


def jobs(seed: int, count: int = 300) -> dict[str, list[int]]:
    """Jobs of each tenant, by size."""
    chance = random.Random(seed)
    return {it: [chance.randint(1, MOST_LENGTH) for _ in range(count)] for it in QUANTA}


def deficit_order(sizes: Mapping[str, Sequence[int]], quanta: Mapping[str, int]) -> list[Handed]:
    """The order of deficit round robin, until a tenant has no job."""
    left = {it: list(found) for it, found in sizes.items()}
    deficits = dict.fromkeys(left, 0)
    order: list[Handed] = []
    while True:
        for it, queue in left.items():
            deficits[it] += quanta[it]
            while queue[0] <= deficits[it]:
                deficits[it] -= queue[0]
                order.append((it, queue.pop(0)))
                if not queue:
                    return order


@pytest.mark.parametrize("seed", range(20))
def test_deficit_round_robin_obeys_it(seed: int) -> None:
    order = deficit_order(jobs(seed), QUANTA)
    assert len(order) > 300 and not list(faults(order, QUANTA))


@pytest.mark.parametrize("seed", range(20))
def test_other_quanta_break_it(seed: int) -> None:
    swapped = {"physics": 100_000, "biology": 200_000, "guests": 100_000}
    assert any("bytes of physics" in it for it in faults(deficit_order(jobs(seed), swapped), QUANTA))


def test_a_round_robin_of_jobs_breaks_it() -> None:
    sizes = jobs(0)
    order = [(it, sizes[it][place]) for place in range(300) for it in QUANTA]
    assert len(list(faults(order, QUANTA))) == 3


def test_a_turn_that_is_left_out_breaks_it() -> None:
    order = deficit_order(jobs(0), QUANTA)
    begin = next(place for place, it in enumerate(order) if place > 100 and it[0] == "biology" != order[place - 1][0])
    end = next(place for place in range(begin, len(order)) if order[place][0] != "biology")
    found = list(faults(order[:begin] + order[end:], QUANTA))
    assert found == ["the turns of physics and biology differ by 2", "the turns of biology and guests differ by 2"]


def test_the_bound_is_exact() -> None:
    """Of a quantum of 100 the bytes differ by 1 less the quantum after the first job, and by all but the quantum after the second."""
    quanta = {"a": 100, "b": 100}
    assert not list(faults([("b", 1), ("b", 100 + MOST_LENGTH - 1), ("a", 100)], quanta))
    found = list(faults([("b", 1), ("b", 100 + MOST_LENGTH), ("a", 100)], quanta))
    assert found == ["the bytes of b differ by 65635 from 100 times its turns"]


def test_where_a_tenant_runs_out_the_order_is_cut() -> None:
    order = [("a", 1), ("b", 2), ("a", 3), ("b", 4)]
    assert while_all_have_jobs(order, {"a": 2, "b": 2}) == order[:3]
    with pytest.raises(ValueError):
        while_all_have_jobs(order, {"a": 3, "b": 3})
