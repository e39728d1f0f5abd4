"""How pictures look: colours that most people can tell apart, and ink on paper, which change places where it is dark."""
import base64
import re
from html import escape

# Okabe and Ito's colours that are seen on both white and black. Nothing is told by colour alone.
COLOURS = ("#0072b2", "#d55e00", "#009e73", "#cc79a7", "#e69f00", "#56b4e9")

INK, FAINT, PAPER, FILL = "#1b1b1b", "#5e5e5e", "#ffffff", "#f0f0ec"
IN_THE_DARK = {INK: "#ececec", FAINT: "#b4b4b4", PAPER: "#161616", FILL: "#2b2b2e"}
FONT = "DejaVu Sans"

# how many characters of a name are shown
LONGEST = 24


def short(name: str) -> str:
    """A name, of which the middle gives way to an ellipsis where it is long: names often differ at their ends."""
    half = LONGEST // 2
    return name if len(name) <= LONGEST else f"{name[:half]}…{name[1 - half :]}"


def titled(svg: str, wholes: dict[str, str]) -> str:
    """A picture in which these parts have titles, the whole names, where they are shown shortened."""
    for part, whole in wholes.items():
        if short(whole) != whole:
            svg = svg.replace(f'<g id="{part}">', f'<g id="{part}">\n<title>{escape(whole)}</title>', 1)
    return svg


def dark() -> str:
    """The rules of CSS by which a picture turns dark."""
    rules = []
    for light, instead in IN_THE_DARK.items():
        for what in ("fill", "stroke"):
            rules.append(f'[{what}="{light}"], [style*="{what}: {light}"] {{ {what}: {instead} !important }}')
    return "@media (prefers-color-scheme: dark) {\n" + "\n".join(rules) + "\n}\n"


def with_fonts(svg: str) -> str:
    """A picture whose texts can do with other fonts, from its element svg on."""
    svg = svg.replace(f"'{FONT}'", f"'{FONT}', Verdana, sans-serif").replace(f'family="{FONT}"', f'family="{FONT}, Verdana, sans-serif"')
    return svg[svg.index("<svg") :]


def alone(svg: str, title: str) -> str:
    """A picture as a file of its own: with its title for those who hear it, and dark where that is preferred."""
    head, rest = with_fonts(svg).split(">", 1)
    return f'<?xml version="1.0" encoding="utf-8"?>\n{head} role="img">\n<title>{title}</title>\n<style>\n{dark()}</style>{rest}'


def inside(svg: str, title: str) -> str:
    """A picture as a part of a page, which has the rules of the dark. It is never made so small that it can't be read."""
    head, rest = with_fonts(svg).split(">", 1)
    return f'{head} role="img" aria-label="{title}" style="min-width: {round(size_of(svg)[0] * 0.65)}px">{rest}'


def size_of(svg: str) -> tuple[int, int]:
    """The width and the height of a picture, in pixels."""
    width, height = (round(float(it) * 4 / 3) for it in re.findall(r'(?:width|height)="([\d.]+)pt"', svg[svg.index("<svg") :])[:2])
    return width, height


def image(svg: str, title: str) -> str:
    """A picture as an image that stands in a page, which need not wait for it."""
    width, height = size_of(svg)
    coded = base64.b64encode(alone(svg, title).encode()).decode()
    return f'<img src="data:image/svg+xml;base64,{coded}" alt="{title}" width="{width}" height="{height}" loading="lazy" decoding="async">'
