"""What the headers ask of a compiler: the language, and which results may not be ignored. It stands outside what is proved."""
import re
import shutil
import subprocess
from collections.abc import Mapping
from pathlib import Path

from of_library.checks import Check, Failed, LeftOut, Setting, compare, run
from of_library.compiled import COMPILERS, STRICT, WARNINGS
from of_library.declared import checked_calls

# The languages, as compilers name them: those that clickpull.h takes, and those that it refuses.
TAKEN = {"c": ("c11", "gnu11", "c17", "c2x"), "c++": ("c++11", "c++14", "c++17", "c++20")}
REFUSED = {"c": ("c90", "gnu99", "c99"), "c++": ("c++98", "gnu++03")}
NEEDED = {"c": "clickpull.h needs C11", "c++": "clickpull.h needs C++11"}

# The languages that clickpull.hpp takes and refuses. The other headers for C++ include it first.
TAKEN_IN_CPP = {"c++": ("c++17", "gnu++17", "c++20")}
REFUSED_IN_CPP = {"c++": ("c++98", "c++11", "c++14", "gnu++14")}
NEEDED_IN_CPP = {"c++": "clickpull.hpp needs C++17"}

# The calls whose result may not be ignored, since a packet may be lost: it may not be accepted or emitted, or others may be left.
OFFERS = {"clk_offer", "clk_offer_many", "clk_inlet_offer", "clk_inlet_offer_many"}
PULLS = {"clk_pull", "clk_live_pull", "clk_drain", "clk_live_drain", "clk_live_reclaim"}


def languages(setting: Setting, standards: Mapping[str, tuple[str, ...]]) -> list[tuple[str, list[str]]]:
    """Each compiler that is there with each of these languages: C or C++, and how a program in it is checked."""
    both = [(it, language) for pair in COMPILERS.items() for it, language in zip(pair, TAKEN)]
    there = [(it, language) for it, language in both if language in standards and shutil.which(it)]
    if not there:
        raise LeftOut("no compiler is there")
    flags = [*WARNINGS, *STRICT, "-I", str(setting.include)]
    return [(language, [it, "-x", language, f"-std={standard}", *flags]) for it, language in there for standard in standards[language]]


def is_refused(command: list[str], source: Path, needed: str) -> None:
    """A compiler refuses a source, and the first that it tells is what is needed."""
    try:
        run([*command, "-fsyntax-only", source])
    except Failed as it:
        told = re.search(r"error: .*", str(it))
        compare(f"whether {' '.join(command[:4])} first says what is needed", told is not None and needed in told[0], True)
    else:
        raise Failed(f"{' '.join(command[:4])} takes {source.read_text()}")


def old_languages_are_refused(setting: Setting) -> str:
    """A header says which language it needs, and is taken in each language from there on."""
    taken, refused = 0, 0
    headers = {"clickpull.h": (TAKEN, REFUSED, NEEDED), "clickpull.hpp": (TAKEN_IN_CPP, REFUSED_IN_CPP, NEEDED_IN_CPP)}
    for header, (takes, refuses, needed) in headers.items():
        source = setting.made / f"included-{header}"
        source.write_text(f'#include "{header}"\n')
        for _, command in languages(setting, takes):
            run([*command, "-fsyntax-only", source])
            taken += 1
        for language, command in languages(setting, refuses):
            is_refused(command, source, needed[language])
            refused += 1
    return f"{taken} times one is taken, and {refused} times refused"


def warned(command: list[str], lines: list[str]) -> set[str]:
    """The calls for whose line a compiler warns of a result that isn't used."""
    text = "\n".join(['#include "clickpull.h"', "void ignore(void);", "void ignore(void) {", *lines, "}", ""])
    flags = [it for it in command if it != "-Werror"]
    done = subprocess.run([*flags, "-S", "-o", "/dev/null", "-"], input=text, capture_output=True, text=True)
    if done.returncode != 0:
        raise Failed(f"{' '.join(command)}\n{done.stderr}")
    at = {int(it) for it in re.findall(r"^<stdin>:(\d+):\d+: warning: .*\[-Wunused-(?:result|value)\]$", done.stderr, re.MULTILINE)}
    return {lines[it - 4].partition("(")[0] for it in at}


def ignored_results_are_told(setting: Setting) -> str:
    """Compilers warn where a result is ignored that tells of a packet that may be lost, and nowhere else; nor where that is turned off."""
    calls = {name: count for name, (returned, count) in checked_calls(setting).items() if "char" not in returned}
    lines = [f"{name}({', '.join(['0'] * count)});" for name, count in calls.items()]
    for _, command in languages(setting, TAKEN):
        compare(f"what {' '.join(command[:4])} warns of", sorted(warned(command, lines)), sorted(OFFERS | PULLS))
        compare("what is warned of where that is turned off", warned([*command, "-DCLK_MUST_USE="], lines), set())
    return f"{len(OFFERS | PULLS)} of {len(lines)} calls"


CHECKS = [
    Check("the languages of the headers", old_languages_are_refused),
    Check("results that are ignored", ignored_results_are_told),
]
