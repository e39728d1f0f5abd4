"""Compares the header with what the archive exports, with its code, and with what Python knows of it. It stands outside what is proved."""
import json
import re
from collections.abc import Iterable
from dataclasses import dataclass
from pathlib import Path

from of_library.checks import Check, Failed, LeftOut, Setting, compare, need, run
from of_library.module import environment, python

COMMENT = re.compile(r"/\*.*?\*/", re.DOTALL)
EXPORTED = ("clk_router_", "clk_raw_")
# The calls over these, which an installed library exports too; one that is inline alone is found here, and missed there.
KINDS = "(?:CLK_MUST_USE )?(?:CLK_API|static inline|extern)"
CHECKED = re.compile(rf"^{KINDS} (const char \*|\w+ )(?!{'|'.join(EXPORTED)})(clk_\w+)\(([^)]*)\)", re.MULTILINE)
DECLARED = re.compile(rf"extern (\w+) ((?:{'|'.join(EXPORTED)})\w+)\(([^;]*)\);")
STRUCT = re.compile(r"typedef struct (\w+) \{(.*?)\} \1;", re.DOTALL)
FIELD = re.compile(r"(\w+ \*?)(\w+(?:, \w+)*);")


@dataclass(frozen=True)
class Header:
    """What the header declares: of each call its answer and its parameters' types, of each struct its fields with their types."""

    calls: dict[str, tuple[str, ...]]
    structs: dict[str, tuple[tuple[str, str], ...]]


def header_of(setting: Setting) -> Header:
    """What the header declares, without the struct that it alone has."""
    text = COMMENT.sub("", (setting.include / "clickpull.h").read_text())
    calls = {it[2]: (it[1], *map(type_of, it[3].split(","))) for it in DECLARED.finditer(text)}
    structs = {it[1]: tuple(fields_of(it[2])) for it in STRUCT.finditer(text)}
    if structs.pop(STRUCT_OF_THE_HEADER, None) is None:
        raise Failed(f"the header has no {STRUCT_OF_THE_HEADER}")
    return Header(calls, structs)


def checked_calls(setting: Setting) -> dict[str, tuple[str, int]]:
    """Of each call that callers use what it returns, and how many parameters it has."""
    text = COMMENT.sub("", (setting.include / "clickpull.h").read_text())
    return {it[2]: (it[1].strip(), 0 if it[3] == "void" else it[3].count(",") + 1) for it in CHECKED.finditer(text)}


def type_of(parameter: str) -> str:
    """The type of a parameter, without its name."""
    found = re.fullmatch(r"\s*(.*?)\w+\s*", parameter, re.DOTALL)
    if found is None:
        raise Failed(f"{parameter!r} is no parameter")
    return " ".join(found[1].split())


def fields_of(text: str) -> Iterable[tuple[str, str]]:
    """The fields of a struct, each with its type."""
    for it in FIELD.finditer(text):
        for name in it[2].split(", "):
            yield name, it[1].strip()


# What the archive exports.


def exported(path: Path, *words: str) -> list[str]:
    """The names that a library exports."""
    need("nm")
    symbols = run(["nm", "-g", "--defined-only", *words, path])
    return sorted(it[1] for it in re.finditer(r"^[0-9a-f]+ [A-Z] (\S+)$", symbols, re.MULTILINE))


def names_are_exported(setting: Setting) -> str:
    """The header declares what the archive, the installed archive and the shared library export, and no more."""
    proved, checked = sorted(header_of(setting).calls), checked_calls(setting)
    whole = sorted([*proved, *checked])
    # An archive has names besides by which its parts find one another.
    compare("the archive's exports", [it for it in exported(setting.archive) if it.startswith(EXPORTED)], proved)
    compare("the installed archive's exports", [it for it in exported(setting.installed) if it.startswith("clk_")], whole)
    compare("the shared library's exports", exported(setting.shared, "-D"), whole)
    return f"{len(proved)} exports that are proved, and {len(checked)} calls over them"


# What its code says.

CODE = Path("crates/clickpull_c/src")
# A struct that the exports take as another crate has it.
ITEM = Path("crates/clk_inlet/src/item.rt")
EXPORT = re.compile(r"pub (?:unsafe )?extern \"C\" fn (\w+)\((.*?)\)(?: -> ([\w&*: ]+?))?\s*(?:\n\s*(?:requires|ensures)|\{|where)", re.DOTALL)
CONSTANT = re.compile(r"pub const (\w+): u32 = (\d+);")
LAID_OUT = re.compile(r"((?:[ \t]*//[^\n]*\n)*)(?:#\[[^\n]*\]\n)*#\[repr\(C\)\]\n(?:#\[[^\n]*\]\n)*pub struct (\w+) \{(.*?)\n\}", re.DOTALL)
NUMBERS = {"u8": "uint8_t", "u16": "uint16_t", "u32": "uint32_t", "u64": "uint64_t", "usize": "size_t"}
# Answers that the header alone gives, and the struct that it alone has: the exports take its fields.
OF_THE_HEADER = ("SHUT", "NULL")
STRUCT_OF_THE_HEADER = "clk_record"
POINTERS = {"*mut u8": "void *", "*const u8": "const void *"}


class Code:
    """What the code of the exports declares, in the words of C. A struct's comment says which of C's it is, and else its name does."""

    def __init__(self, root: Path) -> None:
        text = "\n".join(it.read_text() for it in [*sorted((root / CODE).rglob("*.rt")), root / ITEM])
        laid_out = list(LAID_OUT.finditer(text))
        self.names = {it[2]: self.named(it[1], it[2]) for it in laid_out}
        self.structs: dict[str, tuple[tuple[str, str], ...]] = {}
        for it in laid_out:
            fields = tuple(self.fields(it[3]))
            # Several structs of the code may be one of C.
            compare(f"{it[2]} in the code", self.structs.setdefault(self.names[it[2]], fields), fields)
        self.constants = {it[1]: int(it[2]) for it in CONSTANT.finditer(text)}
        self.calls = {it[1]: (self.answer(it[3]), *self.parameters(it[2])) for it in EXPORT.finditer(text)}

    @staticmethod
    def named(comment: str, name: str) -> str:
        """Which struct of C a struct is."""
        told = re.search(r"`(clk_\w+)`", comment)
        return told[1] if told else "clk_" + re.sub(r"(?<!^)(?=[A-Z])", "_", name).lower()

    def plain(self, name: str) -> str:
        """A type that is handed over as it is."""
        found = NUMBERS.get(name) or POINTERS.get(name) or self.names.get(name)
        if found is None:
            raise Failed(f"the code has a type {name} that isn't known here")
        return found

    def answer(self, name: str | None) -> str:
        """The type of an answer."""
        return self.plain(name.strip()) if name else "void"

    def parameters(self, text: str) -> Iterable[str]:
        """The types of parameters. An allocator is none in C, and a slice is two."""
        for it in filter(None, map(str.strip, text.split(","))):
            kind = it.partition(":")[2].strip()
            found = re.fullmatch(r"(&mut |&)?(\[)?([\w* ]+?)\]?", kind)
            if kind == "Global":
                continue
            if found is None:
                raise Failed(f"the code has a parameter {it} that isn't known here")
            yield self.pointer(found[1], self.plain(found[3])) if found[1] else self.plain(found[3])
            if found[2]:
                yield "size_t"

    @staticmethod
    def pointer(kind: str, of: str) -> str:
        """What a reference is in C."""
        star = f"{of}*" if of.endswith("*") else f"{of} *"
        return star if kind == "&mut " else f"const {star}"

    def fields(self, text: str) -> Iterable[tuple[str, str]]:
        """The fields of a struct that take bytes."""
        for it in re.finditer(r"^\s*(?:pub )?(\w+): ([\w* ]+),", text, re.MULTILINE):
            if it[2] != "Global":
                yield it[1], self.plain(it[2])


def code_is_the_same(setting: Setting) -> str:
    """The code of the exports has the header's parameters, answers and structs."""
    if not any((setting.root / CODE).rglob("*.rt")):
        raise LeftOut(f"{CODE} is missing")
    code, header = Code(setting.root), header_of(setting)
    compare("the calls of the code", sorted(code.calls), sorted(header.calls))
    for name, wanted in header.calls.items():
        compare(f"{name} in the code", code.calls[name], wanted)
    compare("the structs of the code", sorted(code.structs), sorted(header.structs))
    for name, fields in header.structs.items():
        compare(f"{name} in the code", code.structs[name], fields)
    constants = {**constants_of(setting, "clk_status"), **constants_of(setting, "clk_outcome")}
    compare("the answers of the code", code.constants, {name: it for name, it in constants.items() if name not in OF_THE_HEADER})
    return f"{len(header.calls)} calls, {len(header.structs)} structs and {len(code.constants)} answers"


# What Python knows.

PYTHON = """
import ctypes, json
from clickpull import library as it
numbers = {getattr(ctypes, f"c_uint{n}"): f"uint{n}_t" for n in (8, 16, 32)}
numbers |= {ctypes.c_uint64: "uint64_t", ctypes.c_size_t: "size_t", ctypes.c_void_p: "void *", None: "void"}
structs = {that: name for name, that in vars(it).items() if isinstance(that, type) and issubclass(that, ctypes.Structure) and that is not ctypes.Structure}
def told(that, answer=False):
    if that in structs: return structs[that]
    if that in numbers and not (that is ctypes.c_size_t and ctypes.c_size_t is ctypes.c_uint64): return numbers[that]
    if that in numbers: return "64 bits"
    return told(that._type_) + "*"
print(json.dumps({
    "calls": {name: [told(answer), *map(told, taken)] for name, (taken, answer) in it.CALLS.items()},
    "structs": {name: [ctypes.sizeof(that), *([field, getattr(that, field).offset, getattr(that, field).size] for field, _ in that._fields_)] for that, name in structs.items()},
    "statuses": {name: value for name, value in vars(it).items() if name.isupper() and type(value) is int},
}))
"""

# Names of structs in Python that aren't C's without its prefix.
OTHER_NAMES = {"clk_router": "RouterHandle", "clk_inlet": "InletHandle", "clk_live": "LiveHandle"}


def name_in_python(name: str) -> str:
    """What Python calls a struct of C."""
    return OTHER_NAMES.get(name) or "".join(it.title() for it in name.removeprefix("clk_").split("_"))


def in_python(kind: str, structs: Iterable[str]) -> str:
    """A type as Python tells it: without const, since it has none, and numbers of 64 bits alike."""
    bare = kind.replace("const ", "")
    if bare.startswith("void *"):
        return bare
    base, stars = bare.rstrip("* "), "*" * bare.count("*")
    told = name_in_python(base) if base in structs else {"uint64_t": "64 bits", "size_t": "64 bits"}.get(base, base)
    return told + stars


def layout_of(setting: Setting, header: Header) -> dict[str, list[object]]:
    """The size of each struct, and of each field its place and size, as the compiler has them."""
    need("cc")
    lines = ['#include "clickpull.h"', "#include <stdio.h>", "int main(void) {"]
    for name, fields in header.structs.items():
        lines.append(f'printf("{name} %zu", sizeof({name}));')
        lines += [f'printf(" %zu %zu", offsetof({name}, {it}), sizeof((({name} *)0)->{it}));' for it, _ in fields]
        lines.append('printf("\\n");')
    source, program = setting.made / "layout.c", setting.made / "layout"
    source.write_text("\n".join([*lines, "return 0; }"]))
    run(["cc", "-I", setting.include, source, "-o", program])
    told: dict[str, list[object]] = {}
    for line in run([program]).splitlines():
        name, size, *rest = line.split()
        numbers = list(map(int, rest))
        fields = header.structs[name]
        told[name] = [int(size), *([field, *numbers[2 * i : 2 * i + 2]] for i, (field, _) in enumerate(fields))]
    return told


def python_is_the_same(setting: Setting) -> str:
    """Python has the header's calls, parameters, structs and answers, with their sizes and places."""
    header = header_of(setting)
    found = json.loads(run([python(), "-c", PYTHON], environment(setting)))
    calls = {name: [in_python(it, header.structs) for it in wanted] for name, wanted in header.calls.items()}
    compare("the calls of Python", sorted(found["calls"]), sorted(calls))
    for name, wanted in calls.items():
        compare(f"{name} in Python", found["calls"][name], wanted)
    layout = {name_in_python(name): told for name, told in layout_of(setting, header).items()}
    compare("the structs of Python", sorted(found["structs"]), sorted(layout))
    for name, told in layout.items():
        compare(f"{name} in Python", found["structs"][name], told)
    compare("the answers of Python", found["statuses"], statuses_of(setting))
    return ""


def statuses_of(setting: Setting) -> dict[str, int]:
    """The answers of calls, by their names without the prefix."""
    return constants_of(setting, "clk_status")


def constants_of(setting: Setting, enum: str) -> dict[str, int]:
    """The constants of an enum, by their names without the prefix."""
    text = COMMENT.sub("", (setting.include / "clickpull.h").read_text())
    body = re.search(rf"typedef enum {enum} \{{(.*?)\}}", text, re.DOTALL)
    if body is None:
        raise Failed(f"the header has no {enum}")
    return {it[1]: int(it[2]) for it in re.finditer(r"CLK_(\w+) = (\d+)", body[1])}


CHECKS = [
    Check("the header's names and the exports", names_are_exported),
    Check("the header and the code of the exports", code_is_the_same),
    Check("the header and what Python knows of it", python_is_the_same),
]
