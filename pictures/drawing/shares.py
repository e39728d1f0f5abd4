"""What each input of a scheduler got over the pulls, with the bounds that are proved of it as a band round its line."""
from matplotlib.axes import Axes

from drawing import plot
from drawing.laws import Share, shares
from drawing.model import Node, Router, Visit
from drawing.progress import tell
from drawing.style import COLOURS, FAINT, INK, short, titled
from drawing.tree import counted

CAPTIONS = {
    "DRRSched": (
        "The line is what passed. The band stands where something stands at the input. Since it was last found empty, what passed is at most its",
        "quantum for each arrival, and less than that by the quantum and 65,534 bytes at most. Arrivals at two inputs differ by 1 at most.",
    ),
    "StrideSched": (
        "The line is the packets given. With as many as the band has, the input's pass is within the largest stride of every other input's pass.",
        "A pass grows by 65,536 over the tickets, rounded down, with each packet; that of an input found empty is brought up to the others'.",
    ),
}


def stairs(at: list[float], value: list[float | None], end: float) -> list[tuple[list[float], list[float]]]:
    """The corners of a line in steps, in pieces where some values are missing."""
    pieces: list[tuple[list[float], list[float]]] = []
    is_open = False
    for it, (left, height) in enumerate(zip(at, value)):
        if height is None:
            is_open = False
            continue
        if not is_open:
            pieces.append(([], []))
        is_open = True
        right = at[it + 1] if it + 1 < len(at) else max(end, left)
        pieces[-1][0].extend((left, right))
        pieces[-1][1].extend((height, height))
    return pieces


def draw_band(axes: Axes, share: Share, end: float, name: str, colour: str) -> None:
    """The band of an input, as polygons."""
    lower, upper = stairs(share.at, share.least, end), stairs(share.at, share.most, end)
    for piece, ((at, least), (_, most)) in enumerate(zip(lower, upper)):
        axes.fill(at + at[::-1], most + least[::-1], facecolor=colour, alpha=0.22, edgecolor="none", gid=f"band-{name}-{piece}")
        axes.plot(at, most, color=colour, linewidth=0.8, linestyle=(0, (1, 1.5)))
        axes.plot(at, least, color=colour, linewidth=0.8, linestyle=(0, (1, 1.5)))


def draw_input(axes: Axes, share: Share, end: float, name: str, it: int) -> None:
    """The line of an input in its band, with a cross where it leaves it."""
    colour = COLOURS[it % len(COLOURS)]
    draw_band(axes, share, end, name, colour)
    (at, got), = stairs(share.at, list(share.got), end)
    axes.plot(at, got, color=colour, linewidth=2, gid=f"line-{name}")
    if share.outside:
        axes.plot(*zip(*share.outside), "x", color=INK, markersize=7, gid=f"outside-{name}")


def label(node: Node, it: int, share: Share) -> str:
    """What is written above the line of an input."""
    arguments = node.element.numbers
    own = arguments[it if len(arguments) > 1 else 0]
    outside = "; LEAVES THE BAND" if share.outside else ""
    name = short(node.inputs[it])
    if node.element.kind == "DRRSched":
        return f"[{it}] {name}: {counted(own, 'byte', 'bytes')} an arrival; {counted(share.arrivals, 'arrival', 'arrivals')}, {share.got[-1]:,.0f} bytes{outside}"
    return f"[{it}] {name}: {counted(own, 'ticket', 'tickets')}; {counted(int(share.got[-1]), 'packet', 'packets')}{outside}"


def columns_of(inputs: int) -> int:
    """How many panels stand beside one another."""
    return 1 if inputs <= 4 else 2 if inputs <= 16 else 4


def draw(router: Router, node: Node, visits: list[Visit], title: str, narrower: int = 0) -> str:
    """The shares of a scheduler, a panel for each input, as SVG."""
    found = shares(node, visits, narrower)
    pulls = max((it.pull + 1 for it in visits if it.device == node.device), default=1)
    end = pulls + max(0.5, pulls / 100)
    columns = columns_of(len(found))
    rows = -(-len(found) // columns)
    tell(f"drawing the shares of {len(found)} inputs over {pulls:,} pulls")
    width, height = (9.0 if columns < 4 else 15.0), 1.35 + 1.5 * rows
    drawn = plot.figure(width, height)
    panels = drawn.subplots(rows, columns, sharex=True, sharey=True, squeeze=False)
    name = f"{node.device}-{node.number}"
    for it, axes in enumerate(panels.flat):
        if it >= len(found):
            axes.set_axis_off()
            continue
        draw_input(axes, found[it], end, f"{name}-{it}", it)
        axes.set_title(label(node, it, found[it]), loc="left", fontsize=9 if columns == 1 else 7, gid=f"input-{name}-{it}")
        axes.grid(axis="y", color=FAINT, alpha=0.25, linewidth=0.6)
    finish(panels[0][0], found, end, node)
    unit = "bytes" if node.element.kind == "DRRSched" else "packets"
    drawn.suptitle(f"{title.replace(node.element.name, short(node.element.name))} ({node.element.kind}, {router.where(node)})", x=0.01, y=1 - 0.08 / height, ha="left", va="top", fontsize=11, fontweight="bold")
    drawn.supylabel(f"passed so far ({unit})", x=0.01, fontsize=9, color=INK)
    drawn.text(0.01, 0.06 / height, "\n".join(CAPTIONS[node.element.kind]), fontsize=7.5, color=FAINT, va="bottom")
    drawn.text(0.985, 0.4 / height, "pulls of the link", ha="right", va="bottom", fontsize=9)
    drawn.subplots_adjust(left=0.1 * 9 / width, right=0.985, top=1 - 0.55 / height, bottom=0.8 / height, hspace=0.35, wspace=0.08)
    return titled(plot.svg(drawn), {f"input-{name}-{it}": whole for it, whole in enumerate(node.inputs)})


def finish(axes: Axes, found: list[Share], end: float, node: Node) -> None:
    """The limits of the axes, which all panels share: every line is seen, and the bands as far as they are near."""
    highest = max(max(share.got + [it for it in share.most if it is not None]) for share in found)
    if node.element.kind == "StrideSched":
        highest = min(highest, 1.5 * max(max(share.got) for share in found) + 2)
    axes.set_xlim(0, end)
    axes.set_ylim(-0.03 * max(highest, 1), 1.06 * max(highest, 1))
    plot.whole_numbers(axes.xaxis)
    plot.whole_numbers(axes.yaxis)
