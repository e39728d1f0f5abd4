"""What a dispatcher has to do, by the rules of docs/FORMATS.md as tests/run_rules.py tells them. It stands outside what is proved."""
import sys
from collections import deque
from pathlib import Path

sys.path.append(str(Path(__file__).resolve().parents[2] / "tests"))
from of_library.model import Tree, trees_of  # noqa: E402
from run_rules import Deficit, Packet, Queue, Scheduler, queues_below  # noqa: E402


class Expected:
    """Queues and trees of a text, which packets are offered to and pulled from."""

    def __init__(self, text: str) -> None:
        tops = trees_of(text)
        self._queues = {sender: (it, device) for device, top in enumerate(tops) for it in queues_below(top) for sender in it.senders}
        self._held: dict[int, deque[Packet]] = {it.number: deque() for top in tops for it in queues_below(top)}
        self._trees = [Tree(top, self._held) for top in tops]
        self._numbers = dict.fromkeys(self._queues, 0)
        self._left = [0] * len(tops)
        self.devices = range(len(tops))

    @property
    def senders(self) -> list[int]:
        """The numbers of the senders."""
        return sorted(self._queues)

    def left(self, device: int) -> int:
        """How many packets are left for a device."""
        return self._left[device]

    def offer(self, sender: int, length: int) -> tuple[Packet, bool, Packet | None]:
        """The packet that is offered, whether it is accepted, and what is evicted for it."""
        queue, device = self._queues[sender]
        packet, held, evicted = Packet(sender, self._numbers[sender], length), self._held[queue.number], None
        self._numbers[sender] += 1
        if len(held) == queue.capacity:
            if not queue.drops_front:
                return packet, False, None
            evicted = held.popleft()
        held.append(packet)
        self._left[device] += evicted is None
        return packet, True, evicted

    def take(self, device: int, moment: int) -> Packet | None:
        """What pulls at this moment emit, as long as one could emit something."""
        tree = self._trees[device]
        while self.is_due(device, moment):
            if packet := tree.pull(moment):
                self._left[device] -= 1
                return packet
        return None

    def is_due(self, device: int, moment: int) -> bool:
        """Whether a pull at this moment could emit a packet."""
        tree = self._trees[device]
        return self._gives(tree, tree.top, max(moment, tree.moment))

    def _gives(self, tree: Tree, top: Queue | Scheduler, moment: int) -> bool:
        """Whether a queue or a scheduler has a packet that no Shaper holds back."""
        if isinstance(top, Queue):
            return bool(self._held[top.number])
        kept = tree.kept[id(top)]
        if top.name == "Shaper" and min(kept.burst, kept.tokens + kept.rate * (moment - kept.filled)) == 0:
            return False
        if isinstance(kept, Deficit) and any(kept.heads):
            return True
        return any(self._gives(tree, it, moment) for it in top.inputs)
