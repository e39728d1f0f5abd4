"""Where the sources are that installations are made of. This is Python and no part of what is proved."""
from pathlib import Path

# The name of the program and of the library.
NAME = "clickpull"

ROOT = Path(__file__).resolve().parent.parent.parent
INCLUDE = ROOT / "include"
HEADER = INCLUDE / f"{NAME}.h"
PAGES = ROOT / "docs"
CRATES = ROOT / "crates"
HEADERS = tuple(sorted(it.name for it in INCLUDE.iterdir()))
