"""The words of pictures/draw: each command writes a picture to standard output."""
import argparse
import os
import sys
from html import escape

from drawing import raster, reading, style, tree
from drawing.journeys import journeys
from drawing.model import Node, Router, Wrong, WrongWords


def name_of(path: str) -> str:
    """The name of a file, for a title."""
    if path == reading.STDIN:
        return "on standard input"
    return os.path.basename(path).encode(errors="replace").decode()


def draw_tree(given: argparse.Namespace) -> str:
    """`draw tree`."""
    router = reading.tree(given.tree)
    counts = reading.report(given.report, router) if given.report else {}
    title = f"The tree {name_of(given.tree)}" + (f", with the packets of {name_of(given.report)}" if given.report else "")
    return style.alone(tree.draw(router, title, counts), escape(title))


def node_of(router: Router, given: argparse.Namespace) -> Node:
    """The scheduler that the words name."""
    device: int = given.device
    number: int = given.node
    if device >= len(router.devices):
        raise WrongWords(f"{given.tree} has no device {device}: it has {len(router.devices)}, counted from 0")
    nodes = router.devices[device]
    if number >= len(nodes):
        raise WrongWords(f"{given.tree} has no node {number}: below its device {device} are {len(nodes) - 1} schedulers, counted from 1")
    node = nodes[number]
    if node.element.kind not in ("DRRSched", "StrideSched"):
        raise WrongWords(f"node {number} of {given.tree} is {node.element.name}, a {node.element.kind}: shares are those of a DRRSched or a StrideSched")
    return node


def draw_shares(given: argparse.Namespace) -> str:
    """`draw shares`."""
    router = reading.tree(given.tree)
    node = node_of(router, given)
    visits = reading.visits(given.visits, router)
    title = f"What each input of {node.element.name} got: {name_of(given.tree)}"
    from drawing import shares

    return style.alone(shares.draw(router, node, visits, title), escape(title))


def draw_packets(given: argparse.Namespace) -> str:
    """`draw packets`."""
    answer = reading.answer(given.answer)
    if not answer.offers:
        raise Wrong(f"{given.answer}: it has no packets: it has to be the answer of a script, and not the report of a run")
    found = journeys(answer, reading.visits(given.visits), given.visits)
    title = f"The packets of {name_of(given.answer)}, from offer to link"
    from drawing import packets

    return style.alone(packets.draw(found, answer, title), escape(title))


def draw_page(given: argparse.Namespace) -> str:
    """`draw page`."""
    from drawing import page

    return page.of_files(f"{name_of(given.script)} over {name_of(given.tree)}", given.tree, given.script)


def natural(word: str) -> int:
    """A number of the command line."""
    if not word.isdecimal():
        raise argparse.ArgumentTypeError(f"'{word}' is no number")
    return int(word)


def words() -> argparse.ArgumentParser:
    """What may be said to it."""
    top = argparse.ArgumentParser(prog="draw", description="Draws what clickpull reads and writes, to standard output.")
    commands = top.add_subparsers(required=True, metavar="COMMAND")

    def command(name: str, run: object, about: str, *files: str) -> argparse.ArgumentParser:
        it = commands.add_parser(name, help=about, description=about)
        for file in files:
            it.add_argument(file.lower(), metavar=file)
        it.set_defaults(run=run, png=False)
        if name != "page":
            it.add_argument("--png", action="store_true", help="PNG instead of SVG, where rsvg-convert or inkscape is on the PATH")
        return it

    it = command("tree", draw_tree, "The tree as SVG: senders, queues, schedulers and devices; as TREE, - reads standard input", "TREE")
    it.add_argument("report", nargs="?", metavar="REPORT", help="a run's report, or the answer of a script that ends with drain")
    it = command("shares", draw_shares, "What each input of a scheduler got, with the proved bounds, as SVG", "TREE", "VISITS")
    it.add_argument("--node", type=natural, required=True, metavar="N", help="the scheduler, by its number in preorder from 1, as visits and `draw tree` have it")
    it.add_argument("--device", type=natural, default=0, metavar="N", help="the device above it (0)")
    command("packets", draw_packets, "Each packet from its offer to the link, as SVG", "ANSWER", "VISITS")
    command("page", draw_page, "A script step by step, as one HTML file; it runs clickpull", "TREE", "SCRIPT")
    return top


def picture_of(given: argparse.Namespace) -> str | bytes:
    """What the words ask for, as SVG, HTML or PNG. Before anything is drawn it looks for what makes a PNG."""
    if not given.png:
        picture: str = given.run(given)
        return picture
    raster.renderer()
    return raster.png(given.run(given))


def write(picture: str | bytes) -> None:
    """Writes a picture to standard output. Where that fails, what is still buffered is discarded, so that Python's exit doesn't write it."""
    if sys.stdout is None:
        raise Wrong("standard output: it is closed")
    try:
        if isinstance(picture, bytes):
            sys.stdout.buffer.write(picture)
        else:
            sys.stdout.write(picture)
        sys.stdout.flush()
    except OSError as it:
        os.dup2(os.open(os.devnull, os.O_WRONLY), sys.stdout.fileno())
        raise it if isinstance(it, BrokenPipeError) else Wrong(f"standard output: {it.strerror}") from None


def say(words: str, status: int) -> int:
    """Writes one line to standard error, and returns the status."""
    print(f"draw: {words}", file=sys.stderr)
    return status


def main(given_words: list[str] | None = None) -> int:
    """Draws what the words ask for. Status 1 says that a file can't be used, 2 that the words are wrong, and 130 that Ctrl-C ended it."""
    given = words().parse_args(given_words)
    try:
        write(picture_of(given))
    except (Wrong, WrongWords) as it:
        return say(str(it), 1 if isinstance(it, Wrong) else 2)
    except ModuleNotFoundError as it:
        name = (it.name or "").split(".")[0]
        return say(f"Python's {name} is missing: it is in Debian's package python3-{name}", 1)
    except BrokenPipeError:
        return 1
    except OSError as it:
        return say(f"{it.filename or 'a file or a program'}: {it.strerror}", 1)
    except KeyboardInterrupt:
        return say("interrupted", 130)
    return 0


if __name__ == "__main__":
    sys.exit(main())
