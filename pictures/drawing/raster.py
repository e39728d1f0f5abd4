"""Pictures as PNG, by a renderer on the PATH: rsvg-convert, or else Inkscape."""
import shutil
import subprocess

from drawing.model import Wrong
from drawing.progress import tell

# each reads SVG on standard input, and writes PNG to standard output
RENDERERS = (("rsvg-convert", "--format=png"), ("inkscape", "--pipe", "--export-type=png", "--export-filename=-"))


def renderer() -> tuple[str, ...]:
    """The first renderer that is there, with its words."""
    for words in RENDERERS:
        if shutil.which(words[0]):
            return words
    raise Wrong("there is neither rsvg-convert nor inkscape on the PATH, and --png needs one: rsvg-convert is in Debian's package librsvg2-bin")


def png(svg: str) -> bytes:
    """A picture as PNG."""
    words = renderer()
    tell(f"{words[0]} makes a PNG")
    done = subprocess.run(words, input=svg.encode(), capture_output=True)
    if done.returncode or not done.stdout:
        raise Wrong(f"{words[0]}: {done.stderr.decode(errors='replace').strip() or 'it wrote nothing'}")
    return done.stdout
