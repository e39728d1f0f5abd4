"""What charts have in common: a figure by matplotlib, of which the same data make the same bytes, with texts as texts."""
import io

import matplotlib
from matplotlib.figure import Figure
from matplotlib.font_manager import FontProperties
from matplotlib.textpath import TextToPath
from matplotlib.ticker import FuncFormatter, MaxNLocator

from drawing.progress import tell
from drawing.style import FAINT, FONT, INK, PAPER

matplotlib.rcParams.update({
    "svg.fonttype": "none", "text.parse_math": False, "svg.hashsalt": "joistdock", "path.simplify": False, "font.family": FONT, "font.size": 9,
    "text.color": INK, "axes.labelcolor": INK, "axes.edgecolor": FAINT, "xtick.color": FAINT, "ytick.color": FAINT,
    "xtick.labelcolor": INK, "ytick.labelcolor": INK, "figure.facecolor": PAPER, "axes.facecolor": "none", "legend.frameon": False,
    "axes.spines.top": False, "axes.spines.right": False,
})


def figure(width: float, height: float) -> Figure:
    """An empty figure, in inches."""
    return Figure(figsize=(width, height))


def width_of(text: str, size: float) -> float:
    """How wide a text is, in inches, at a size in points."""
    width: float = TextToPath().get_text_width_height_descent(text, FontProperties(family=FONT, size=size), ismath=False)[0]
    return width / 72


def whole_numbers(axis: object, most: int = 6) -> None:
    """Has an axis count in whole numbers, with commas, in so many steps at most."""
    axis.set_major_locator(MaxNLocator(integer=True, nbins=most, steps=[1, 2, 5, 10]))  # type: ignore[attr-defined]
    axis.set_major_formatter(FuncFormatter(lambda it, _: f"{it:,.0f}"))  # type: ignore[attr-defined]


def svg(drawn: Figure) -> str:
    """The figure as SVG."""
    tell("writing the picture")
    text = io.StringIO()
    drawn.savefig(text, format="svg", metadata={"Date": None, "Creator": None})
    return text.getvalue()
