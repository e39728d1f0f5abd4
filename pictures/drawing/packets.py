"""Each packet from its offer to the link, sender by sender."""
import math
from collections.abc import Sequence
from itertools import groupby

from matplotlib.axes import Axes
from matplotlib.lines import Line2D
from matplotlib.ticker import NullLocator

from drawing import moments, plot, summary
from drawing.journeys import Journey
from drawing.model import Answer
from drawing.progress import tell
from drawing.style import COLOURS, FAINT, INK

WAITS, HELD, LOST, OUT = COLOURS[0], COLOURS[1], INK, COLOURS[2]
# how many packets have a row each, and the size of their names in points
MOST, LABEL = 500, 7


def rows_of(journeys: list[Journey]) -> list[tuple[int, list[Journey]]]:
    """The packets of each sender, by its number."""
    in_order = sorted(journeys, key=lambda it: it.packet)
    return [(sender, list(of)) for sender, of in groupby(in_order, key=lambda it: it.packet.sender)]


def marks(axes: Axes, points: list[tuple[float, float]], marker: str, colour: str, size: float, gid: str, filled: bool = True) -> None:
    """Marks of one kind."""
    face = colour if filled else "none"
    axes.plot([x for x, _ in points], [y for _, y in points], marker, color=colour, markerfacecolor=face, markersize=size, gid=gid)


def bars(axes: Axes, ways: Sequence[tuple[float, float, float]], colour: str, width: float, gid: str) -> None:
    """Lines from left to right, each from one place to another at its height, as one line with gaps."""
    across = [x for begun, ended, _ in ways for x in (begun, ended, math.nan)]
    up = [y for *_, y in ways for y in (y, y, math.nan)]
    axes.plot(across, up, color=colour, linewidth=width, solid_capstyle="butt", gid=gid)


def draw_ways(axes: Axes, placed: list[tuple[float, Journey]], last: float, size: float) -> None:
    """The ways of packets, each at its height: a line while it waits, a thick one while it is held, and how it ended."""
    ways = [(it.offered, last if it.end is None else it.end, y) for y, it in placed if not it.refused]
    held = [(begun, last if ended is None else ended, y) for y, it in placed for begun, ended in it.held]
    bars(axes, ways, WAITS, max(0.4, size / 5), "waits")
    bars(axes, held, HELD, max(0.8, size * 0.7), "held")
    marks(axes, [(it.offered, y) for y, it in placed if not it.refused], "|", WAITS, size, "offered")
    marks(axes, [(it.linked, y) for y, it in placed if it.linked is not None], "o", OUT, size * 0.8, "linked")
    marks(axes, [(it.offered, y) for y, it in placed if it.refused], "x", LOST, size, "refused")
    marks(axes, [(it.evicted, y) for y, it in placed if it.evicted is not None], "v", LOST, size, "evicted", filled=False)
    marks(axes, [(last, y) for y, it in placed if it.end is None], ">", WAITS, size, "left", filled=False)


def key(axes: Axes, height: float, is_long: bool) -> None:
    """What the marks mean."""
    lost = [Line2D([], [], color=LOST, marker="x", linestyle="", label="refused"), Line2D([], [], color=LOST, marker="v", markerfacecolor="none", linestyle="", label="evicted")]
    kinds = [
        Line2D([], [], color=WAITS, marker="|", label="offered, waits in its queue"), Line2D([], [], color=HELD, linewidth=4, label="held as a head"),
        Line2D([], [], color=OUT, marker="o", linestyle="", label="out of the link"), *lost,
        Line2D([], [], color=WAITS, marker=">", markerfacecolor="none", linestyle="", label="left at the end"),
    ]
    if is_long:
        kinds = [Line2D([], [], color=WAITS, linewidth=6, label="how many wait or are held, all lanes to one scale"), *lost]
    axes.figure.legend(handles=kinds, loc="upper left", bbox_to_anchor=(0.005, 1 - 0.27 / height), ncol=6, fontsize=8, columnspacing=1.2, handletextpad=0.5, labelcolor=INK)


def draw_places(axes: Axes, placed: list[tuple[float, Journey]], size: float) -> None:
    """How many places later, or earlier, than in the order of the offers each packet came out."""
    out = [(y, it) for y, it in placed if it.linked is not None]
    axes.axvline(0, color=FAINT, linewidth=0.8)
    bars(axes, [(0, it.later, y) for y, it in out], OUT, max(0.4, size * 0.5), "places")
    marks(axes, [(it.later, y) for y, it in out], "o", OUT, size * 0.6, "later")
    far = max([abs(it.later) for _, it in out], default=0) + 1
    axes.set_xlim(-far, far)
    axes.set_xlabel("places later at the link than\nby the order of offers (packets)")
    plot.whole_numbers(axes.xaxis)


def place(rows: list[tuple[int, list[Journey]]], axes: Axes) -> list[tuple[float, Journey]]:
    """The height of each packet, with the names of senders between."""
    placed: list[tuple[float, Journey]] = []
    y = 0.0
    for sender, of in rows:
        axes.text(0.004, y + 0.1, f"sender {sender}", transform=axes.get_yaxis_transform(), fontsize=8.5, fontweight="bold", va="center")
        axes.axhline(y - 0.6, color=FAINT, linewidth=0.5)
        for it in of:
            y += 1
            placed.append((y, it))
        y += 1.4
    axes.set_ylim(y - 0.6, -0.7)
    return placed


def singly(left: Axes, right: Axes, rows: list[tuple[int, list[Journey]]], last: float, size: float) -> None:
    """A row for each packet, with its name."""
    placed = place(rows, left)
    draw_ways(left, placed, last, size)
    draw_places(right, placed, size)
    left.set_yticks([y for y, _ in placed], [named(it) for _, it in placed], fontsize=LABEL)


def named(journey: Journey) -> str:
    """What is written at the row of a packet."""
    return f"{journey.packet}  {journey.packet.length:,} B"


def room_for_names(rows: list[tuple[int, list[Journey]]]) -> float:
    """How wide the column of names is, in inches, with some room on both sides."""
    return max(0.9, 0.2 + max((plot.width_of(named(it), LABEL) for _, of in rows for it in of), default=0))


def draw(journeys: list[Journey], answer: Answer, title: str) -> str:
    """All packets, as SVG: a row for each, or where there are many a lane for each sender."""
    tell(f"drawing {len(journeys):,} packets")
    rows = rows_of(journeys)
    is_long = len(journeys) > MOST
    lanes, rest = summary.lanes(rows)
    count = len(journeys) + 1.4 * len(rows)
    head, room = 0.62 + moments.height(answer), max(moments.room(answer), 0.9 if is_long else room_for_names(rows))
    height = head + 0.73 + (summary.LANE * len(lanes) if is_long else 0.19 * count + 0.2)
    drawn = plot.figure(10, height)
    left, right = drawn.subplots(1, 2, sharey=True, gridspec_kw={"width_ratios": (4, 1)}, squeeze=True)
    last = answer.last + 1
    if is_long:
        summary.draw(left, right, lanes, last)
    else:
        singly(left, right, rows, last, min(7.0, 0.19 * 72 * 0.55))
    left.set_xlim(0, last + 0.5)
    moments.draw(left, answer, last, (9.7 - room) * 0.78)
    finish(left, right)
    drawn.suptitle(title, x=0.01, y=1 - 0.07 / height, ha="left", va="top", fontsize=11, fontweight="bold")
    key(left, height, is_long)
    drawn.text(0.01, 0.06 / height, note(is_long, rest), fontsize=7.5, color=FAINT, va="bottom")
    drawn.subplots_adjust(left=room / 10, right=0.985, top=1 - head / height, bottom=0.62 / height, wspace=0.03)
    return plot.svg(drawn)


def finish(left: Axes, right: Axes) -> None:
    """The axes, which count lines of the answer."""
    plot.whole_numbers(left.xaxis)
    left.set_xlabel("line of the answer")
    left.yaxis.set_minor_locator(NullLocator())
    for axes in (left, right):
        axes.tick_params(axis="y", length=0)
        axes.grid(axis="x", color=FAINT, alpha=0.25, linewidth=0.6)


def note(is_long: bool, rest: list[tuple[int, list[Journey]]]) -> str:
    """What a summary leaves out."""
    if not is_long:
        return ""
    more = f" {len(rest):,} senders with {sum(len(of) for _, of in rest):,} packets have no lane." if rest else ""
    return f"A summary, for more than {MOST} packets.{more}"
