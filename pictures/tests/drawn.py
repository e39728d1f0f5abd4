"""Reads pictures back: what is drawn in an SVG, in the units of its axes."""
import re
import xml.etree.ElementTree as ET
from dataclasses import dataclass

SVG = "{http://www.w3.org/2000/svg}"
HREF = "{http://www.w3.org/1999/xlink}href"
Points = list[tuple[float, float]]


@dataclass
class Axis:
    """An axis: two of its ticks, as places in the picture with what is written there."""

    ticks: list[tuple[float, str]]

    def value(self, place: float) -> float:
        """What a place stands for."""
        (p, a), *_, (q, b) = self.ticks
        low, high = number(a), number(b)
        return low + (place - p) * (high - low) / (q - p)

    def name(self, place: float) -> str:
        """What is written at the tick that is nearest."""
        return min(self.ticks, key=lambda it: abs(it[0] - place))[1]


def number(label: str) -> float:
    """The number at a tick."""
    return float(label.replace(",", ""))


def words(element: ET.Element) -> list[str]:
    """The texts in a part of a picture."""
    return ["".join(it.itertext()) for it in element.iter(f"{SVG}text")]


class Chart:
    """A chart that matplotlib drew."""

    def __init__(self, svg: str) -> None:
        self.root = ET.fromstring(svg)
        self.parts = {it.get("id", ""): it for it in self.root.iter(f"{SVG}g") if it.get("id")}
        self.panels = [it for name, it in self.parts.items() if name.startswith("axes_")]

    def axis(self, panel: ET.Element, way: str) -> Axis:
        """The axis of a panel, or the last one that has numbers at its ticks, which the panels of a column share."""
        found = Axis([])
        for it in [*self.panels, panel]:
            ticks = [Axis(self.ticks(it, way))]
            found = next((axis for axis in ticks if len(axis.ticks) > 1), found)
        return found

    @staticmethod
    def ticks(panel: ET.Element, way: str) -> list[tuple[float, str]]:
        """The places of ticks that have something written at them."""
        found = []
        for it in panel.iter(f"{SVG}g"):
            if it.get("id", "").startswith(f"{way}tick_") and words(it):
                use = next(it.iter(f"{SVG}use"), None)
                text = next(it.iter(f"{SVG}text"))
                place = use.get(way, "") if use is not None else text.get(way, "")
                found.append((float(place), words(it)[0]))
        return found

    def panel_of(self, name: str) -> ET.Element:
        """The panel in which a part stands."""
        return next(it for it in self.panels if any(part is self.parts[name] for part in it.iter()))

    def corners(self, name: str) -> Points:
        """The corners of a line, a polygon, or lines, as places in the picture."""
        found: Points = []
        for path in self.parts[name].iter(f"{SVG}path"):
            found += [(float(x), float(y)) for x, y in re.findall(r"[ML] ([-\d.]+) ([-\d.]+)", path.get("d", ""))]
        return found

    def marks(self, name: str) -> Points:
        """The places of marks."""
        return [(float(it.get("x", "")), float(it.get("y", ""))) for it in self.parts[name].iter(f"{SVG}use")]

    def points(self, name: str) -> Points:
        """The corners of a line or a polygon, in the units of its axes."""
        panel = self.panel_of(name)
        across, up = self.axis(panel, "x"), self.axis(panel, "y")
        return [(across.value(x), up.value(y)) for x, y in self.corners(name)]
