"""A row of moments above a chart whose axis counts the lines of an answer: lines put events in order, where each device has a clock of its own."""
from collections.abc import Iterator

from matplotlib.axes import Axes

from drawing import plot
from drawing.model import Answer
from drawing.style import FAINT

SIZE = 7
# the height of a row, in inches, and how many devices have one at most
ROW, MOST_ROWS = 0.16, 8

Tick = tuple[int, int]


def firsts(answer: Answer, device: int) -> list[Tick]:
    """The line at which a device comes to each moment, with the moment. A clock may go back."""
    found: list[Tick] = []
    for it in answer.pulls:
        if it.device == device and (not found or found[-1][1] != it.moment):
            found.append((it.line, it.moment))
    return found


def steps(most: int) -> Iterator[int]:
    """The round steps 1, 2, 5, 10 and so on, up to the greatest moment."""
    power = 1
    while power <= most:
        yield from (power, 2 * power, 5 * power)
        power *= 10


def spaced(ticks: list[Tick], gap: float) -> list[Tick]:
    """The first tick, and each that is far enough from the one kept before it."""
    kept: list[Tick] = []
    for it in ticks:
        if not kept or it[0] - kept[-1][0] >= gap:
            kept.append(it)
    return kept


def chosen(ticks: list[Tick], gap: float) -> list[Tick]:
    """The ticks to draw, at least `gap` lines apart: at round moments where these give three or more."""
    for step in steps(max((moment for _, moment in ticks), default=0)):
        rounded = [it for it in ticks if it[1] % step == 0]
        if len(rounded) >= 3 and spaced(rounded, gap) == rounded:
            return rounded
    return spaced(ticks, gap)


def devices(answer: Answer) -> list[int]:
    """The devices that have a row."""
    return sorted({it.device for it in answer.pulls})[:MOST_ROWS]


def height(answer: Answer) -> float:
    """The height of all rows, in inches."""
    return ROW * len(devices(answer))


def title(answer: Answer, device: int) -> str:
    """What stands on the left of a row."""
    return "moment" if len(devices(answer)) == 1 else f"moment of device {device}"


def room(answer: Answer) -> float:
    """How wide the column of titles is, in inches, with some room on both sides, and half a moment's on the right."""
    return max((0.2 + plot.width_of(title(answer, it), SIZE) + aside(firsts(answer, it)) for it in devices(answer)), default=0)


def aside(ticks: list[Tick]) -> float:
    """How far on the left of the axes a title ends, in inches: a moment may stand at the first line."""
    return 0.06 + plot.width_of(f"{ticks[0][1]:,}", SIZE) / 2


def draw(axes: Axes, answer: Answer, span: float, width: float) -> None:
    """The rows, above axes that are `width` inches wide and show `span` lines."""
    for row, device in enumerate(reversed(devices(answer))):
        up = 4 + 72 * ROW * row
        ticks = firsts(answer, device)
        gap = span / width * (0.1 + plot.width_of(f"{max(moment for _, moment in ticks):,}", SIZE))
        shown = chosen(ticks, gap)
        for line, moment in shown:
            written(axes, line, (0, up), f"{moment:,}", "center", f"moment-{device}-{line}")
        written(axes, 0, (-72 * aside(shown), up), title(answer, device), "right", f"moments-{device}")


def written(axes: Axes, line: float, by: tuple[float, float], words: str, side: str, gid: str) -> None:
    """A text above the axes, moved by some points, with a short line down to them where it stands at a tick."""
    across = axes.get_xaxis_transform()
    axes.annotate(words, (line, 1), xycoords=across, xytext=by, textcoords="offset points", ha=side, va="bottom", fontsize=SIZE, gid=gid, annotation_clip=False)
    if side == "center":
        axes.plot([line], [1], "|", color=FAINT, markersize=5, transform=across, clip_on=False)
