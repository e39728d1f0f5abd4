"""The tree of a router, laid out by graphviz: packets go from the senders on the left to the links on the right."""
import shutil
import subprocess
from html import escape

from drawing.model import QUEUES, SCHEDULERS, Counts, Element, Node, Router, Wrong
from drawing.progress import tell
from drawing.style import COLOURS, FAINT, FILL, FONT, INK, PAPER, short

# how much room there is in an element on the sides, and above and below, in inches
ROOM, CLOSE = "0.14,0.07", "0.06,0.02"
# The shape of each kind, so that none is told by its colour alone.
SHAPES = {
    "Sender": f'shape=ellipse fillcolor="{PAPER}"',
    "Queue": f'shape=box fillcolor="{FILL}"',
    "FrontDropQueue": f'shape=box style="filled,dashed" fillcolor="{FILL}"',
    "ToDevice": f'shape=box peripheries=2 margin="{ROOM}" fillcolor="{PAPER}"',
}
SCHEDULER = f'shape=box style="filled,rounded" penwidth=1.6 margin="{ROOM}" fillcolor="{PAPER}"'
# above so many elements senders and queues have one line each, and stand close
LARGE = 60
UNITS = {"DRRSched": ("byte", "bytes"), "StrideSched": ("ticket", "tickets")}


def counted(number: int, one: str, many: str) -> str:
    """A number with its unit."""
    return f"{number:,} {one if number == 1 else many}"


def declaration(element: Element) -> list[str]:
    """The class of an element with its arguments, in lines of eight."""
    if not element.arguments:
        return [element.kind]
    shown = [short(it) for it in element.arguments]
    rows = [", ".join(shown[it : it + 8]) for it in range(0, len(shown), 8)]
    return f"{element.kind}({',;'.join(rows)})".split(";")


def lines_of(element: Element, node: Node | None, counts: Counts | None) -> list[str]:
    """What is written in an element below its name."""
    lines = declaration(element)
    if element.kind in QUEUES:
        lines.append(f"up to {counted(element.numbers[0], 'packet', 'packets')}")
    if element.kind == "Shaper":
        rate, burst = element.numbers
        lines.append(f"{counted(rate, 'packet', 'packets')} a tick, {burst:,} at once")
    if element.kind == "ToDevice" and node:
        lines.append(f"device {node.device}")
    if element.kind in SCHEDULERS and node:
        lines.append(f"node {node.number}")
    return lines + told(counts)


def row(words: str, size: int) -> str:
    """A line of an element. An underscore hangs below its line, and has more room."""
    height = f' height="{size + 5}" valign="top"' if "_" in words else ""
    return f"<tr><td{height}>{words}</td></tr>"


def label(element: Element, node: Node | None, counts: Counts | None, is_large: bool) -> str:
    """What is written in an element: its name, and the lines below it, which in a large tree follow it on one line where no scheduler is."""
    name = f"<b>{short(element.name)}</b>"
    if is_large and element.kind in ("Sender", *QUEUES):
        rest = escape(", ".join(declaration(element) + told(counts)))
        return f'<<table border="0" cellspacing="0" cellpadding="0"><tr><td>{name}</td><td width="5"></td><td>{rest}</td></tr></table>>'
    lines = [name, *(escape(it) for it in lines_of(element, node, counts))]
    return f'<<table border="0" cellspacing="0" cellpadding="0">{"".join(row(it, 11) for it in lines)}</table>>'


def told(counts: Counts | None) -> list[str]:
    """What became of the packets of a queue."""
    return [f"took {counts.accepted:,}", f"refused {counts.refused:,}", f"evicted {counts.evicted:,}"] if counts else []


def box(element: Element, node: Node | None, counts: Counts | None, is_large: bool) -> str:
    """An element, as graphviz wants it."""
    has_lost = counts is not None and counts.refused + counts.evicted > 0
    shape = SHAPES.get(element.kind, SCHEDULER) + (f' color="{COLOURS[1]}" penwidth=2.5' if has_lost else "")
    return f'"{element.name}" [id="element-{element.name}" {shape} label={label(element, node, counts, is_large)}];'


def port(node: Node, at: int) -> str:
    """What is written at an input: its number, and what it may get."""
    arguments = node.element.numbers if node.element.kind in UNITS else ()
    if not arguments:
        return f"[{at}]" if len(node.inputs) > 1 else ""
    return f"[{at}] {counted(arguments[at if len(arguments) > 1 else 0], *UNITS[node.element.kind])}"


def edges(router: Router) -> list[str]:
    """The connections, as graphviz wants them: those that are pulled have an open arrow."""
    found = []
    for sender in router.of_kind("Sender"):
        found.append(f'"{sender.name}" -> "{router.queue_of[sender.numbers[0]]}";')
    for nodes in router.devices:
        for node in nodes:
            for at, source in enumerate(node.inputs):
                name = f"edge-{node.device}-{node.number}-{at}"
                found.append(f'"{source}" -> "{node.element.name}" [id="{name}" arrowhead=empty label="{port(node, at)}"];')
    return found


def dot(router: Router, title: str, counts: dict[str, Counts]) -> str:
    """The tree in graphviz's language."""
    nodes = {node.element.name: node for nodes in router.devices for node in nodes}
    is_large = len(router.elements) > LARGE
    room, between = (f'margin="{CLOSE}" height=0.1', 0.04) if is_large else (f'margin="{ROOM}"', 0.25)
    boxes = [box(it, nodes.get(it.name), counts.get(it.name), is_large) for it in router.elements.values()]
    key = "A filled arrow pushes, an open one is pulled. A FrontDropQueue is dashed." + (" Counts are packets; a queue that lost some has a thick border." if counts else "")
    return "\n".join([
        "digraph {",
        f'graph [rankdir=LR bgcolor="{PAPER}" fontname="{FONT}" fontsize=12 fontcolor="{INK}" labelloc=t ranksep=0.7 nodesep={between} pad=0.2',
        f'  label=<<b>{escape(title)}</b><br/><font point-size="10" color="{FAINT}">{key}</font><br/> >];',
        f'node [style=filled color="{INK}" fontname="{FONT}" fontsize=11 fontcolor="{INK}" {room}];',
        f'edge [color="{INK}" fontname="{FONT}" fontsize=10 fontcolor="{INK}"];',
        *boxes,
        *edges(router),
        "}",
    ])


def draw(router: Router, title: str, counts: dict[str, Counts]) -> str:
    """The tree as SVG, with what each queue took, refused and evicted where there is a report."""
    if not shutil.which("dot"):
        raise Wrong("there is no dot on the PATH: it is in Debian's package graphviz")
    tell(f"laying out {len(router.elements)} elements")
    done = subprocess.run(["dot", "-Tsvg"], input=dot(router, title, counts), capture_output=True, text=True)
    if done.returncode:
        raise Wrong(f"dot: {done.stderr.strip()}")
    return with_whole_arguments(done.stdout, router)


def with_whole_arguments(svg: str, router: Router) -> str:
    """The drawing, of which each title has the whole name of its element, and the whole arguments where some were shortened."""
    for it in router.elements.values():
        if any(short(word) != word for word in it.arguments):
            svg = svg.replace(f"<title>{it.name}</title>", f"<title>{it.name} :: {it.kind}({escape(', '.join(it.arguments))})</title>", 1)
    return svg
