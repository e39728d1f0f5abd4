"""A program and archives that stand in for the built ones, so that packaging/install is tested where nothing is built.

This is Python and no part of what is proved.
"""
import os
import re
import shutil
import sys
from dataclasses import dataclass
from pathlib import Path

from making.library import VERSION, run
from making.sources import HEADER
from making.targets import OWN as THIS_MACHINE, Target
from testing.checks import LeftOut, need

INSTALL = Path(__file__).resolve().parent.parent / "install"

PROGRAM = f"""
#include <stdio.h>
#include <string.h>
static const char top[] = "Stands in\\n\\nUsage: clickpull [COMMAND]\\n\\nCommands:\\n  run  Runs\\n\\nOptions:\\n  -h, --help  Print help";
static const char runs[] = "Runs\\n\\nUsage: clickpull run [OPTIONS]\\n\\nOptions:\\n  -h, --help  Print help";
int main(int count, char **words) {{
    int version = count == 2 && strcmp(words[1], "--version") == 0, help = count > 1 && strcmp(words[1], "help") == 0;
    return version || help ? puts(version ? "clickpull {VERSION}" : count > 2 ? runs : top) < 0 : 2;
}}
"""

# The members of the library's archive, which has two of one name, and of the heap's, which has one of that name too. The second has all exports
# that the header's calls want.
OWN = ("clk_router_first", "clk_router_second")
DECLARED = "void *rattle_alloc(unsigned long size, unsigned long align)"
FIRST = f"{DECLARED}; int {OWN[0]}(void) {{ return rattle_alloc(8, 8) != 0; }}"
WANTED = re.findall(r"^extern \w+ (clk_(?:router|raw)_\w+)\(", HEADER.read_text(), re.MULTILINE)
SECOND = "\n".join(f"int {it}(void) {{ return 1; }}" for it in (OWN[1], *WANTED))
HEAP = f"static char given[64]; {DECLARED} {{ return given + (size + align) % 64; }}"
CALLER = f"""
#include <string.h>
int clk_router_first(void);
int clk_router_second(void);
const char *clk_version(void);
int main(void) {{ return clk_router_first() && clk_router_second() && strcmp(clk_version(), "{VERSION}") == 0 ? 0 : 1; }}
"""


@dataclass(frozen=True)
class StandIn:
    """A folder with a program and an archive without the heap, both for a machine, and a toolchain that has the heap."""

    folder: Path
    target: Target

    @property
    def program(self) -> Path:
        """The program."""
        return self.folder / "clickpull"

    @property
    def archive(self) -> Path:
        """The archive that `rt lib` would make."""
        return self.folder / "built.a"

    @property
    def kit(self) -> Path:
        """The toolchain."""
        return self.folder / "kit"

    def install(self, *words: str | Path, toolchain: bool = True, archive: Path | None = None, searched: str | None = None) -> str:
        """What packaging/install writes, with the toolchain on the PATH or without, or with another PATH."""
        named: list[str | Path] = ["--target", self.target.architecture, "--program", self.program, "--archive", archive or self.archive]
        return self.alone(*named, *words, toolchain=toolchain, searched=searched)

    def alone(self, *words: str | Path, toolchain: bool = False, searched: str | None = None) -> str:
        """What packaging/install writes where neither the program nor the archive is named."""
        return run([sys.executable, INSTALL, *words], environment={"PATH": searched or path(self.kit / "bin" if toolchain else None)})

    def calls(self, *flags: str | Path) -> str:
        """Builds a program of C that calls each member, with these flags, and runs it."""
        source, built = self.folder / "caller.c", self.folder / "caller"
        source.write_text(CALLER)
        run([self.target.tool("cc"), source, "-o", built, *flags])
        return run([*self.target.runner, built])


def path(first: Path | None) -> str:
    """A PATH on which no other toolchain is than this."""
    others = [it for it in os.environ["PATH"].split(os.pathsep) if not (Path(it) / "rt").exists()]
    whole = os.pathsep.join([*([str(first)] if first else []), *others])
    for it in ("ar", "cc", "nm", "ranlib"):
        if shutil.which(it, path=whole) is None:
            raise LeftOut(f"{it} is missing where rt isn't")
    return whole


def compiled(text: str, path: Path, target: Target = THIS_MACHINE) -> Path:
    """Compiles a text of C."""
    path.parent.mkdir(parents=True, exist_ok=True)
    source = path.with_suffix(".c")
    source.write_text(text + "\n")
    run([target.tool("cc"), "-Wall", "-Wextra", "-Werror", "-fPIC", "-c", source, "-o", path])
    return path


def program(name: str, path: Path, target: Target = THIS_MACHINE) -> Path:
    """A program that says that it has this name."""
    run([target.tool("cc"), compiled(PROGRAM.replace("clickpull", name), path.with_suffix(".o"), target), "-o", path])
    return path


def made(folder: Path, target: Target = THIS_MACHINE) -> StandIn:
    """Makes them in a folder, for a machine."""
    need("ar", "cc", "nm", "ranlib", target.tool("cc"), *target.runner[:1])
    it = StandIn(folder, target)
    folder.mkdir(parents=True)
    program("clickpull", it.program, target)
    # With q, and without s, a member doesn't replace one of its name.
    for number, text in enumerate((FIRST, SECOND)):
        run(["ar", "qc", it.archive, compiled(text, folder / str(number) / "same.o", target)])
    run(["ranlib", it.archive])
    (it.kit / "bin").mkdir(parents=True)
    (it.kit / "c").mkdir()
    rt = it.kit / "bin" / "rt"
    rt.write_text("#!/bin/sh\nexit 1\n")
    rt.chmod(0o755)
    run(["ar", "rcs", it.kit / "c" / "liblibc_c.a", compiled(HEAP, folder / "heap" / "same.o")])
    return it
