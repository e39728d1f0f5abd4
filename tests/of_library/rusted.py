"""The crate for Rust: what it knows of the header, its tests, and its examples. It stands outside what is proved."""
import re
import shutil
import subprocess
from collections.abc import Callable, Iterable, Iterator
from pathlib import Path

from making.library import VERSION, version_numbers
from of_library.checks import Check, Failed, Setting, compare, need, run
from of_library.compiled import WARNINGS
from of_library.declared import header_of

CRATE = Path("rust")

def cargo(setting: Setting, *words: str, folder: Path | None = None, more: dict[str, str] | None = None) -> str:
    """What cargo writes, which asks no registry, and leaves nothing beside the sources."""
    need("cargo")
    environment = {"CLICKPULL_LIB_DIR": str(setting.installed.parent), "CARGO_TARGET_DIR": str(setting.made / "cargo"), **(more or {})}
    return run(["cargo", *words], environment, folder or setting.root / CRATE)


def has(*words: str) -> bool:
    """Whether cargo has this command."""
    return shutil.which("cargo") is not None and subprocess.run(["cargo", *words, "--version"], capture_output=True).returncode == 0


# What the crate declares.

CALL = re.compile(r"\bfn (clk_\w+)\(([^)]*)\)(?: -> (\w+))?;")
LAID_OUT = re.compile(r"#\[repr\(C\)\]\n(?:#\[[^\n]*\]\n)*(?:pub(?:\(crate\))? )?struct (\w+) \{(.*?)\n\}", re.DOTALL)
FIELD = re.compile(r"^\s*(?:pub(?:\(crate\))? )?(\w+): (\w+),", re.MULTILINE)
NUMBERS = {"u8": "uint8_t", "u16": "uint16_t", "u32": "uint32_t", "u64": "uint64_t", "usize": "size_t"}

# Structs of the crate that have another name than C's.
NAMES = {"Offer": "clk_offer_of"}


def in_c(name: str, parameter: str = "") -> str:
    """What C calls a type of the crate. A handle is named by its parameter."""
    if name == "Handle":
        return f"clk_{parameter}"
    plain = re.sub(r"^Raw", "", name)
    return NUMBERS.get(name) or NAMES.get(name) or "clk_" + re.sub(r"(?<!^)(?=[A-Z])", "_", plain).lower()


def parameters(text: str) -> Iterator[str]:
    """The types of parameters, as C has them."""
    for name, pointer, kind in re.findall(r"(\w+): (\*mut |\*const )?(\w+)", text):
        before, after = ("const " if pointer == "*const " else ""), (" *" if pointer else "")
        yield f"{before}{in_c(kind, name)}{after}"


def header_is_the_same(setting: Setting) -> str:
    """The calls that the crate declares have the header's parameters and answers, and its structs the header's fields."""
    header, folder = header_of(setting), setting.root / CRATE / "src"
    calls = {it[1]: (in_c(it[3]) if it[3] else "void", *parameters(it[2])) for it in CALL.finditer((folder / "ffi.rs").read_text())}
    if not calls:
        raise Failed("the crate declares no call")
    for name, found in calls.items():
        compare(f"{name} in Rust", found, header.calls.get(name))
    structs = [it for name in ("values.rs", "layout.rs") for it in LAID_OUT.finditer((folder / name).read_text())]
    for it in structs:
        fields: Iterable[tuple[str, str]] = [(field, in_c(kind)) for field, kind in FIELD.findall(it[2])]
        compare(f"{it[1]} in Rust", tuple(fields), header.structs.get(in_c(it[1])))
    return f"{len(calls)} of {len(header.calls)} calls, {len(structs)} structs"


# What cargo says of it.


def tests_pass(seed: int) -> Callable[[Setting], str]:
    """The tests, those in the documentation too. Random calls are those of the seed."""

    def check(setting: Setting) -> str:
        told = cargo(setting, "test", "--offline", "--locked", more={"CLICKPULL_SEED": str(seed)})
        passed = re.findall(r"(\d+) passed", told)
        return f"{sum(map(int, passed))} tests"

    return check


def brings_no_warning(setting: Setting) -> str:
    """No warning of clippy and of rustdoc, and the layout of rustfmt. The benchmark's calls in C bring none either."""
    need("cargo", "cc")
    run(["cc", "-std=gnu11", *WARNINGS, "-I", setting.include, "-fsyntax-only", setting.root / CRATE / "benches" / "calls.c"])
    done = []
    if has("clippy"):
        cargo(setting, "clippy", "--offline", "--locked", "--all-targets", "--", "-D", "warnings")
        done.append("clippy")
    if has("fmt"):
        cargo(setting, "fmt", "--check")
        done.append("rustfmt")
    cargo(setting, "doc", "--offline", "--locked", "--no-deps", more={"RUSTDOCFLAGS": "-D warnings"})
    return ", ".join([*done, "rustdoc"])


def examples_are_right(setting: Setting) -> str:
    """Each example prints what stands beside it."""
    sources = sorted((setting.root / CRATE / "examples").glob("*.rs"))
    for it in sources:
        compare(it.name, cargo(setting, "run", "--offline", "--locked", "-q", "--example", it.stem), it.with_suffix(".out").read_text())
    return f"{len(sources)} examples"


MANIFEST = """[package]
name = "shown"
version = "0.0.0"
edition = "2021"
[[bin]]
name = "shown"
path = "shown.rs"
[dependencies]
clickpull = {{ path = "{path}" }}
"""


def run_program(setting: Setting, program: str) -> str:
    """What a program prints that uses the crate."""
    folder = setting.made / "shown-in-rust"
    folder.mkdir(exist_ok=True)
    (folder / "Cargo.toml").write_text(MANIFEST.format(path=setting.root / CRATE))
    (folder / "shown.rs").write_text(program)
    return cargo(setting, "run", "--offline", "-q", folder=folder, more={"RUSTFLAGS": "-D warnings"})


PKG_CONFIG = """libdir={folder}

Name: clickpull
Description: a library of this version
Version: {version}
Libs: -L${{libdir}} -lclickpull
"""


def refusal(setting: Setting, version: str) -> str | None:
    """Why the crate isn't built where pkg-config knows a library of this version, or None if it is built."""
    folder = setting.made / f"pkg-config-{version}"
    folder.mkdir()
    (folder / "clickpull.pc").write_text(PKG_CONFIG.format(folder=setting.installed.parent, version=version))
    known = {"PKG_CONFIG_PATH": str(folder), "CARGO_TARGET_DIR": str(setting.made / "cargo-of-pkg-config")}
    try:
        run(["env", "-u", "CLICKPULL_LIB_DIR", "cargo", "build", "--offline", "--locked"], known, setting.root / CRATE)
    except Failed as it:
        return str(it)
    return None


def another_version_is_refused(setting: Setting) -> str:
    """By pkg-config the crate takes a library of its own major and minor version, and else says which one it needs and which is there."""
    need("cargo", "pkg-config")
    major, minor, patch = version_numbers()
    for version in (VERSION, f"{major}.{minor}.{patch + 1}"):
        compare(f"why Rust refuses {version}", refusal(setting, version), None)
    others = [f"{major}.{minor + 1}.0", f"{major}.{minor}0.0", f"{major + 1}.{minor}.0", "0.0.9"]
    for version in others:
        why = refusal(setting, version) or "it is built"
        if f"clickpull {major}.{minor}, which the crate needs" not in why or f"has version '{version}'" not in why:
            raise Failed(f"Rust and the library's version {version}: {why}")
    return f"{len(others)} refused"


def checks(seed: int) -> list[Check]:
    """The checks, with random calls of this seed."""
    return [
        Check("the header and what Rust knows of it", header_is_the_same),
        Check("Rust's tests", tests_pass(seed)),
        Check("Rust without a warning", brings_no_warning),
        Check("Rust's examples", examples_are_right),
        Check("Rust and another version", another_version_is_refused),
    ]
