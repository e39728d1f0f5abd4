"""Builds the program for a machine for which rt links none, by the compiler and the prover below rt. This is Python and no part of what is proved."""
from pathlib import Path

from making.library import run
from making.sources import CRATES, ROOT
from making.targets import Target


def uses_of_crates() -> dict[str, list[str]]:
    """What each crate of the project uses, by crates.txt: others of it, and libraries of the toolchain."""
    lines = (line.partition(":") for line in (ROOT / "crates.txt").read_text().splitlines())
    return {head.split()[0]: used.split() for head, _, used in lines if head}


def below(crate: str, uses: dict[str, list[str]]) -> list[str]:
    """The crates of the project that a crate stands on, each once."""
    found: dict[str, None] = {}
    for it in uses[crate]:
        if it in uses:
            found |= dict.fromkeys([*below(it, uses), it])
    return list(found)


def build(toolchain: Path, crate: str, target: Target, made: Path) -> None:
    """Proves a program, and compiles it to an object file for a machine. The libraries below it are built."""
    uses = uses_of_crates()
    libraries = {it: CRATES / it / "out" / "rlib" if it in uses else toolchain / "rlibs" for it in ["std", *uses[crate]]}
    words: list[str | Path] = [toolchain / "bin" / "rattle", "build", "--crate-name", crate, "src/main.rt"]
    for name, folder in libraries.items():
        words += ["--extern", f"{name}={folder / name}.rlib"]
    for folder in [toolchain / "rlibs", *(CRATES / it / "out" / "rlib" for it in below(crate, uses))]:
        words += ["-L", f"dependency={folder}"]
    words += ["--antt-project", toolchain / "rattle" / "logic" / "antt-project.json", "--logic-built", toolchain / "logic_built"]
    words += ["--jobs", "2", "--links", f"{crate}=", "--incremental", "out/incremental", "--backend", "llvm"]
    run([*words, "--target", target.triple, "--toolchain", toolchain / "toolchain", "-o", made], folder=CRATES / crate)
