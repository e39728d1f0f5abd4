"""PNGs, which a renderer makes where there is one."""
import os
import shutil
import subprocess
from pathlib import Path
from unittest.mock import patch

import pytest
from conftest import BARE, PICTURES, Example, draw
from drawing import raster
from drawing.model import Wrong

FAIR = Example("fair-shares")
TREE = FAIR.file("click")


def stand_in(folder: Path, name: str, text: str) -> None:
    """A program that takes the place of a renderer."""
    (folder / name).write_text(f"#!/bin/sh\n{text}\n")
    (folder / name).chmod(0o755)


def test_without_a_renderer_there_is_a_plain_error(tmp_path: Path) -> None:
    done = draw("tree", TREE, "--png", path=str(tmp_path))
    assert (done.status, done.out) == (1, "")
    assert done.err.startswith("draw: there is neither rsvg-convert nor inkscape on the PATH") and done.err.count("\n") == 1


def test_rsvg_convert_comes_first_and_inkscape_next(tmp_path: Path) -> None:
    with patch.dict(os.environ, PATH=str(tmp_path)):
        stand_in(tmp_path, "inkscape", 'echo "inkscape $*"; /bin/cat')
        assert raster.png("<svg/>") == b"inkscape --pipe --export-type=png --export-filename=-\n<svg/>"
        stand_in(tmp_path, "rsvg-convert", 'echo "rsvg $*"; /bin/cat')
        assert raster.png("<svg/>") == b"rsvg --format=png\n<svg/>"


@pytest.mark.parametrize("text, why", [("echo too large >&2; exit 1", "too large"), ("exit 0", "it wrote nothing")])
def test_a_renderer_that_fails_is_told(text: str, why: str, tmp_path: Path) -> None:
    stand_in(tmp_path, "rsvg-convert", f"/bin/cat > /dev/null; {text}")
    with patch.dict(os.environ, PATH=str(tmp_path)), pytest.raises(Wrong, match=f"^rsvg-convert: {why}$"):
        raster.png("<svg/>")


def test_a_page_has_no_png() -> None:
    assert draw("page", TREE, FAIR.file("script"), "--png").status == 2


@pytest.mark.skipif(not (shutil.which("rsvg-convert", path=BARE) and shutil.which("dot", path=BARE)), reason="rsvg-convert (librsvg2-bin) or graphviz is missing")
def test_a_png_is_drawn() -> None:
    done = subprocess.run([PICTURES / "draw", "tree", TREE, "--png"], capture_output=True, env=os.environ | {"PATH": BARE})
    assert (done.returncode, done.stderr) == (0, b"") and done.stdout.startswith(b"\x89PNG\r\n")
    with open("/dev/full", "w") as full:
        failed = subprocess.run([PICTURES / "draw", "tree", TREE, "--png"], stdout=full, stderr=subprocess.PIPE, text=True, env=os.environ | {"PATH": BARE})
    assert (failed.returncode, failed.stderr) == (1, "draw: standard output: No space left on device\n")
