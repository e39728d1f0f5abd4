"""Random calls on dispatchers over random trees, beside a model. They stand outside what is proved."""
import random
from queue import Empty
from typing import Any

import pytest

from clickpull import Dispatcher, Ended, Job, Record
from clickpull.clock import SECOND
from clocks import ManualClock
from expected import Expected
from of_library.chance import tree_and_script
from replay import emitted

# How many seeds there are, and how many calls are made for each.
SEEDS, CALLS = 10, 10_000


class Both:
    """A dispatcher with a record, and its model, which are called alike. A value is its job's sender and number."""

    def __init__(self, chance: random.Random) -> None:
        self.chance = chance
        self.text = tree_and_script(chance)[0]
        self.clock = ManualClock()
        self.record = Record()
        self.dispatcher = Dispatcher[tuple[int, int]](self.text, tick=1, clock=self.clock, record=self.record)
        self.model = Expected(self.text)
        self.given: list[tuple[int, int]] = []
        self.calls = 0

    def call(self) -> None:
        """Makes a call."""
        device = self.chance.choice(self.model.devices)
        self.calls += 1
        if self.model.senders and self.chance.random() < 0.5:
            self.submit(self.chance.choice(self.model.senders))
        elif self.chance.random() < 0.3 and self.model.left(device):
            self.wait(device)
        else:
            self.take(device)
        assert self.dispatcher.left(device) == self.model.left(device)

    def submit(self, sender: int) -> None:
        size = self.chance.choice([1, 40, 64, 500, 1500, self.chance.randint(1, 65535)])
        packet, accepted, evicted = self.model.offer(sender, size)
        it = self.dispatcher.submit(sender, (sender, packet.number), size)
        assert (it.job, it.accepted) == (job(packet), accepted)
        assert it.evicted == (job(evicted) if evicted else None)

    def take(self, device: int) -> None:
        """Takes what is due, after some time."""
        self.clock.time += self.chance.choice([0, 0, 0, SECOND // 3, SECOND, 2 * SECOND, 30 * SECOND])
        packet = self.model.take(device, self.clock.time // SECOND)
        if packet:
            assert self.dispatcher.next(0, device) == job(packet)
            self.given.append((packet.sender, packet.number))
        else:
            with pytest.raises(Empty):
                self.dispatcher.next(0, device)

    def wait(self, device: int) -> None:
        """Takes what is due next, by waiting for it no longer than is needed."""
        ends = self.clock.time
        while not self.model.is_due(device, ends // SECOND):
            ends = (ends // SECOND + 1) * SECOND
        it = self.dispatcher.next(device=device)
        assert it == job(self.model.take(device, ends // SECOND)) and self.clock.time == ends
        self.given.append((it.sender, it.number))

    def close(self) -> None:
        """Takes all that is left. The record then repeats all of it."""
        self.dispatcher.close()
        for device in self.model.devices:
            while self.model.left(device):
                self.wait(device)
            with pytest.raises(Ended):
                self.dispatcher.next(device=device)
        assert self.dispatcher._carrier._values == {}
        assert [it[:2] for it in emitted(self.text, self.record.text().decode())] == self.given


def job(it: Any) -> Job[tuple[int, int]]:
    """The job of a packet of the model."""
    return Job(it.sender, it.number, it.length, (it.sender, it.number))


@pytest.mark.parametrize("seed", range(SEEDS))
def test_random_calls(seed: int) -> None:
    chance, calls = random.Random(seed), 0
    while calls < CALLS:
        both = Both(chance)
        for _ in range(chance.choice([20, 100, 400])):
            try:
                both.call()
            except AssertionError as it:
                raise AssertionError(f"call {both.calls} on the tree\n{both.text}") from it
        both.close()
        calls += both.calls
