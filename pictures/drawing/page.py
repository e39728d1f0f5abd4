"""A script step by step, as one HTML file that needs nothing else: the page's own parts are page.html, page.css and page.js."""
import json
import os
import tempfile
from html import escape
from importlib.resources import files

from drawing import packets, program, reading, shares, style, tree
from drawing.journeys import journeys
from drawing.model import QUEUES, Answer, Offer, Router, Visit
from drawing.progress import tell
from drawing.steps import Step, steps


def of_files(name: str, tree_path: str, script_path: str) -> str:
    """The page of a tree and a script, which the program runs."""
    reading.text_of(tree_path)
    router = reading.router(tree_path, program.answer(tree_path, "check", tree_path))
    script = reading.text_of(script_path)
    with tempfile.TemporaryDirectory() as room:
        rows = os.path.join(room, "visits.csv")
        text = program.answer(script_path, "script", tree_path, script_path, "--visits", rows)
        visits = reading.visits(rows, router)
    return page(name, router, script, reading.answer_of(script_path, text), visits)


def page(name: str, router: Router, script: str, answer: Answer, visits: list[Visit]) -> str:
    """The page of a script that was carried out."""
    tell(f"making a page of {len(visits):,} visits")
    found = steps(script, answer, visits)
    parts = {
        "title": escape(name),
        "css": part("page.css") + style.dark(),
        "tree": style.inside(tree.draw(router, "The tree", {}), "The tree: the visit that is told lights up its edge"),
        "text": escape(router.text),
        "charts": "\n".join(charts(name, router, answer, visits)),
        "data": json.dumps(data(router, script, found), separators=(",", ":")).replace("<", "\\u003c"),
        "js": part("page.js"),
    }
    whole = part("page.html")
    for key, value in parts.items():
        whole = whole.replace(f"<!--{key}-->", value)
    return whole


def part(name: str) -> str:
    """One of the page's own parts."""
    return files("drawing").joinpath(name).read_text(encoding="utf-8")


def charts(name: str, router: Router, answer: Answer, visits: list[Visit]) -> list[str]:
    """The charts: the packets, and the shares of each scheduler that has some."""
    found = []
    if answer.offers:
        title = "The packets, from offer to link"
        found.append(style.image(packets.draw(journeys(answer, visits, name), answer, title), f"{title}, sender by sender"))
    for node in (node for nodes in router.devices for node in nodes if node.element.kind in shares.CAPTIONS):
        title = f"What each input of {node.element.name} got"
        found.append(style.image(shares.draw(router, node, visits, title), f"{title}, with the bounds that are proved of it"))
    return [f"<figure>{it}</figure>" for it in found]


def data(router: Router, script: str, found: list[Step]) -> dict[str, object]:
    """What the page's script reads: the router, the lines of the script, and a row for each step."""
    return {
        "queues": [{"name": it.name, "kind": it.kind, "capacity": it.numbers[0]} for it in router.of_kind(*QUEUES)],
        "queueOf": router.queue_of,
        "devices": [[{"name": it.element.name, "kind": it.element.kind, "inputs": it.inputs} for it in nodes] for nodes in router.devices],
        "script": [it.rstrip("\r") for it in script.removesuffix("\n").split("\n")],
        "steps": [offer_row(line, it) if isinstance(it, Offer) else visit_row(line, it) for line, it in found],
    }


def offer_row(line: int, it: Offer) -> list[object]:
    """An offer: the line, the packet, whether it was accepted, and the name of the packet that made room."""
    evicted = f"{it.evicted[0]}#{it.evicted[1]}" if it.evicted else ""
    return [line, it.packet.sender, it.packet.number, it.packet.length, int(it.accepted), evicted]


def visit_row(line: int, it: Visit) -> list[object]:
    """A visit, as the visit file has it, after the line; what was got is a name and a length, or an empty name."""
    got = [str(it.got), it.got.length] if it.got else ["", 0]
    return [line, it.device, it.pull, it.node, it.input, int(it.fresh), *got, int(it.passed), it.moment]
