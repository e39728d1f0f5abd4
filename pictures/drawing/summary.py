"""The packets of a long script, sender by sender: how many wait, where some are lost, and how far they leave their order."""
from collections import Counter

from matplotlib.axes import Axes

from drawing import plot
from drawing.journeys import Journey
from drawing.style import COLOURS, FAINT, INK

# how many places a lane has from left to right, and how many senders have a lane
BINS, MOST_LANES = 400, 200
LANE = 0.55

Sender = tuple[int, list[Journey]]


def lanes(rows: list[Sender]) -> tuple[list[Sender], list[Sender]]:
    """The senders that have a lane, in their order, and the rest: where there are many, those with the most packets have one."""
    by_count = sorted(rows, key=lambda it: -len(it[1]))
    return sorted(by_count[:MOST_LANES], key=lambda it: it[0]), by_count[MOST_LANES:]


def waiting(of: list[Journey], last: float, bins: int = BINS) -> list[int]:
    """The most packets that wait or are held as heads at one time, in each of equal parts of the answer up to `last`."""
    changes: Counter[float] = Counter()
    for it in of:
        if not it.refused:
            changes[it.offered] += 1
            changes[last if it.end is None else it.end] -= 1
    most = [0] * bins
    level, reached = 0, 0
    for at in sorted(changes):
        place = min(bins - 1, int(at / last * bins))
        for between in range(reached, place + 1):
            most[between] = max(most[between], level)
        level += changes[at]
        most[place] = max(most[place], level)
        reached = place
    return most


def told(sender: int, of: list[Journey]) -> str:
    """What became of the packets of a sender, in numbers."""
    counts = {
        "out of the link": sum(it.linked is not None for it in of), "refused": sum(it.refused for it in of),
        "evicted": sum(it.evicted is not None for it in of), "left": sum(it.end is None for it in of),
    }
    return f"sender {sender}: {len(of):,} offered, " + ", ".join(f"{count:,} {name}" for name, count in counts.items())


def losses(axes: Axes, of: list[Journey], base: float, last: float, sender: int) -> None:
    """Marks at the foot of a lane where packets were refused or evicted, one for each part of the answer that has some."""
    refused = [float(it.offered) for it in of if it.refused]
    evicted = [it.evicted for it in of if it.evicted is not None]
    for name, marker, found in (("refused", "x", refused), ("evicted", "v", evicted)):
        kept = {int(at / last * BINS): at for at in reversed(found)}
        axes.plot(list(kept.values()), [base] * len(kept), marker, color=INK, markerfacecolor="none", markersize=4, gid=f"{name}-{sender}")


def lane(axes: Axes, sender: int, of: list[Journey], base: float, last: float, scale: float, most: list[int]) -> None:
    """The lane of a sender: its numbers above, and below them as an area how many of its packets wait."""
    corners = [(at * last / BINS, base - 0.6 * it / scale) for place, it in enumerate(most) for at in (place, place + 1)]
    across, up = [x for x, _ in corners], [y for _, y in corners]
    axes.fill([0, *across, last], [base, *up, base], facecolor=COLOURS[0], edgecolor="none", gid=f"waiting-{sender}")
    axes.axhline(base, color=FAINT, linewidth=0.5)
    axes.text(0.004, base - 0.66, f"{told(sender, of)}; at most {max(most):,} waiting", transform=axes.get_yaxis_transform(), fontsize=7.5, va="bottom", gid=f"told-{sender}")
    losses(axes, of, base, last, sender)


def order(axes: Axes, found: list[Sender]) -> None:
    """Beside each lane, from the least to the most places that a packet came out later, with a dot at the mean."""
    axes.axvline(0, color=FAINT, linewidth=0.8)
    far = 1
    for base, (sender, of) in enumerate(found, 1):
        later = [it.later for it in of if it.linked is not None]
        if later:
            far = max(far, -min(later), max(later))
            axes.plot([min(later), max(later)], [base - 0.2] * 2, color=COLOURS[2], linewidth=3, gid=f"places-{sender}")
            axes.plot([sum(later) / len(later)], [base - 0.2], "o", color=COLOURS[2], markersize=6, gid=f"mean-{sender}")
    axes.set_xlim(-1.08 * far, 1.08 * far)
    axes.set_xlabel("places later at the link than\nby offers: range and mean")
    plot.whole_numbers(axes.xaxis, 4)


def draw(left: Axes, right: Axes, found: list[Sender], last: float) -> None:
    """All lanes, with the order beside them."""
    most = [waiting(of, last) for _, of in found]
    scale = max([1] + [max(it) for it in most])
    for base, ((sender, of), levels) in enumerate(zip(found, most), 1):
        lane(left, sender, of, base, last, scale, levels)
    order(right, found)
    left.set_ylim(len(found) + 0.15, 0)
    left.set_yticks([])
