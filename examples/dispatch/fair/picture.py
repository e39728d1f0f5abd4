"""Draws what tenants got beside their shares, as SVG. It stands outside what is proved."""
from collections.abc import Iterator
from html import escape
from itertools import cycle

from fair.shares import Point, Shares

# Okabe and Ito's colours, which most people can tell apart. Each line has its name beside it, too.
COLOURS = ("#0072b2", "#d55e00", "#009e73", "#cc79a7", "#e69f00", "#56b4e9")
INK, FAINT = "#1b1b1b", "#5e5e5e"

# The whole picture, and where the lines are drawn.
WIDTH, HEIGHT = 820, 340
LEFT, RIGHT, TOP, BOTTOM = 90, 600, 46, 290
# How far apart names stand at least.
LINE = 16


def draw(shares: Shares) -> str:
    """The sizes that tenants got, as lines over what was handed over in all, with their shares as dashed lines."""
    course = shares.course()
    title = f"What each tenant of the scheduler {shares.tenants[0].scheduler} got, and its share (dashed)"
    return "\n".join([
        f'<svg xmlns="http://www.w3.org/2000/svg" viewBox="0 0 {WIDTH} {HEIGHT}" width="{WIDTH}" height="{HEIGHT}" role="img"'
        ' font-family="DejaVu Sans, Verdana, sans-serif" font-size="11">',
        f"<title>{escape(title)}</title>",
        f'<rect width="{WIDTH}" height="{HEIGHT}" fill="#ffffff"/>',
        _text(10, 18, title, "font-weight", "bold"),
        *_axes(course[-1]),
        *_marks(shares, course[-1]),
        *_lines(shares, course),
        *_names(shares, course[-1]),
        "</svg>\n",
    ])


def _across(total: float, last: Point) -> float:
    """Where what was handed over in all stands, from the left."""
    return LEFT + (RIGHT - LEFT) * total / max(last.total, 1)


def _up(size: float, last: Point) -> float:
    """Where a tenant's size stands, from the top."""
    return BOTTOM - (BOTTOM - TOP) * size / max(1.0, *last.got, *last.share)


def _text(x: float, y: float, text: str, *attributes: str) -> str:
    """A text in the picture; attributes are names, each with its value after it."""
    more = "".join(f' {name}="{value}"' for name, value in zip(attributes[::2], attributes[1::2]))
    fill = "" if "fill" in attributes else f' fill="{INK}"'
    return f'<text x="{x:.1f}" y="{y:.1f}"{fill}{more}>{escape(text)}</text>'


def _ticks(most: float) -> range:
    """Round numbers from 0 up to the most, seven at most."""
    step, factors = 1, cycle((2, 2.5, 2))
    while most > 6 * step:
        step = round(step * next(factors))
    return range(0, int(most) + 1, step)


def _axes(last: Point) -> Iterator[str]:
    """Both axes with round numbers, and what they count."""
    yield f'<path d="M{LEFT} {TOP}V{BOTTOM}H{RIGHT}" fill="none" stroke="{FAINT}"/>'
    for it in _ticks(last.total):
        yield _text(_across(it, last), BOTTOM + 16, f"{it:,}", "text-anchor", "middle", "fill", FAINT)
    for it in _ticks(max(1.0, *last.got, *last.share)):
        yield _text(LEFT - 6, _up(it, last) + 4, f"{it:,}", "text-anchor", "end", "fill", FAINT)
    yield _text((LEFT + RIGHT) / 2, BOTTOM + 36, "size handed over to all of them", "text-anchor", "middle")


def _marks(shares: Shares, last: Point) -> Iterator[str]:
    """What happened, as a line from top to bottom with a text."""
    for total, text in shares.marks:
        x = _across(total, last)
        yield f'<path d="M{x:.1f} {TOP}V{BOTTOM}" stroke="{FAINT}" stroke-dasharray="1 3"/>'
        yield _text(x, TOP - 6, text, "text-anchor", "middle", "fill", FAINT)


def _lines(shares: Shares, course: list[Point]) -> Iterator[str]:
    """What each tenant got, and its share."""
    last = course[-1]
    for place in range(len(shares.tenants)):
        colour = COLOURS[place % len(COLOURS)]
        got = " ".join(f"{_across(it.total, last):.1f},{_up(it.got[place], last):.1f}" for it in course)
        share = " ".join(f"{_across(it.total, last):.1f},{_up(it.share[place], last):.1f}" for it in course)
        yield f'<polyline points="{got}" fill="none" stroke="{colour}" stroke-width="2"/>'
        yield f'<polyline points="{share}" fill="none" stroke="{INK}" stroke-width="1" stroke-dasharray="5 4"/>'


def _names(shares: Shares, last: Point) -> Iterator[str]:
    """The name of each tenant at the end of its line, with its weight; names keep their distance."""
    above = -1.0 * LINE
    for place in sorted(range(len(shares.tenants)), key=lambda it: -last.got[it]):
        above = max(above + LINE, _up(last.got[place], last) + 4)
        it = shares.tenants[place]
        yield _text(RIGHT + 8, above, f"{it.name}, weight {it.weight:,}", "fill", COLOURS[place % len(COLOURS)], "font-weight", "bold")
