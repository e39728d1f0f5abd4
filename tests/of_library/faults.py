"""Compares names and limits that the proved part defines with those of the header and of Python. It stands outside what is proved."""
import re

from of_library.checks import Check, Failed, LeftOut, Setting, compare, run
from of_library.module import environment, python


def defined(setting: Setting, path: str, pattern: str) -> dict[int, str]:
    """The pairs of a number and a text that a file of the proved part has."""
    file = setting.root / path
    if not file.exists():
        raise LeftOut(f"{path} is missing")
    return {int(it[1]): it[2] for it in re.finditer(pattern, file.read_text())}


def faults_have_their_names(setting: Setting) -> str:
    """Each fault that the header or Python names has the name that the program prints."""
    printed = defined(setting, "crates/clk_packet/src/fault.rt", r'#\[error\("fault (\d+): (\w+)')
    text = (setting.include / "clickpull.h").read_text()
    named = {int(it[1]): it[2] for it in re.finditer(r'case (\d+):\s+return "(\w+)";', text)}
    if not named:
        raise Failed("the header names no fault")
    compare("the header's faults", named, {it: printed.get(it) for it in named})
    asked = "from clickpull.errors import FAULTS; print(*(f'{number} {name}' for number, name in FAULTS.items()), sep='\\n')"
    lines = run([python(), "-c", asked], environment(setting)).splitlines()
    compare("Python's faults", {int(it.split()[0]): it.split()[1] for it in lines}, named)
    return f"{len(named)} faults"


def limits_are_the_same(setting: Setting) -> str:
    """The end of moments is that of the code."""
    path = setting.root / "crates" / "clk_sched" / "src" / "limits.rt"
    if not path.exists():
        raise LeftOut("the limits of sessions are missing")
    found = re.search(r"END_OF_MOMENTS: u64 = 1 << (\d+);", path.read_text())
    text = (setting.include / "clickpull.h").read_text()
    declared = re.search(r"CLK_END_OF_MOMENTS \(UINT64_C\(1\) << (\d+)\)", text)
    if found is None or declared is None:
        raise Failed("the end of moments isn't said")
    compare("the header's end of moments", int(declared[1]), int(found[1]))
    asked = "import clickpull; print(clickpull.END_OF_MOMENTS)"
    compare("Python's end of moments", int(run([python(), "-c", asked], environment(setting))), 1 << int(found[1]))
    return ""


# What the header says that there is at most, and the constants of the code.
MOST = {
    "CLK_MOST_EXPLANATION": ("clk_explain/src/limits.rt", "MAX_EXPLANATION"),
    "CLK_MOST_TAKEN": ("clickpull_c/src/live/taking.rt", "MOST_TAKEN"),
    "CLK_MOST_LINE": ("clickpull_c/src/recording.rt", "MOST_LINE"),
    "CLK_MOST_LINES": ("clk_script/src/limits.rt", "MAX_LINES"),
}


def most_is_the_same(setting: Setting) -> str:
    """What the header says that there is at most is what the code has."""
    text = (setting.include / "clickpull.h").read_text()
    for declared, (file, name) in MOST.items():
        path = setting.root / "crates" / file
        if not path.exists():
            raise LeftOut(f"{path} is missing")
        said = re.search(rf"#define {declared} (\d+)", text)
        found = re.search(rf"pub const {name}: \w+ = ([\d_]+);", path.read_text())
        if said is None or found is None:
            raise Failed(f"{declared} isn't said")
        compare(declared, int(said[1]), int(found[1]))
    return f"{len(MOST)} numbers"


CHECKS = [
    Check("the names of faults", faults_have_their_names),
    Check("the end of moments", limits_are_the_same),
    Check("the most of what the header counts", most_is_the_same),
]
