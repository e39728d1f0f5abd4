"""The library as it is installed: the archive with the toolchain's heap and the calls of the header, and the shared library.

It stands outside what is proved.
"""
import json
import re
import shutil
import sys
from pathlib import Path

from making.library import INTERFACE, VERSION, Unmade, make_archive, make_shared
from making.targets import OWN, Target
from of_library.checks import Check, Failed, LeftOut, Setting, compare, need, run
from of_library.compiled import BUILT, COMPILERS, STRICT, heap
from of_library.declared import checked_calls
from of_library.module import environment

# How a program may be built: as C and as C++, and how its files are put together.
LANGUAGES = {"c": "-std=c11", "c++": "-std=c++11"}
WAYS = {"-O0": ["-O0"], "LTO": ["-O2", "-flto"]}

# Which members of the archive are linked: those that are wanted, or each of them.
MEMBERS = ("--no-whole-archive", "--whole-archive")

# What a compiler tells that can't link with -flto on this machine.
NO_LTO = ("LLVMgold.so", "ld.lld", "lto-wrapper", "plugin needed")


def make_installed(setting: Setting, target: Target = OWN) -> None:
    """Makes the archive and the shared library as packaging does."""
    need("ar", "nm")
    for tool in ("cc", "ar"):
        setting.tool(tool)
    if setting.machine is None:
        heap()
    named = setting.made / f"libclickpull.so.{INTERFACE}"
    try:
        make_archive(setting.archive, setting.installed, target)
        make_shared(setting.installed, named, target)
    except Unmade as it:
        raise Failed(str(it)) from None
    setting.shared.symlink_to(named.name)


def is_linked(setting: Setting, compiler: str, language: str, way: str) -> bool:
    """Builds a program of two files with the installed archive, also with each of its members, and runs it; False if there is no LTO."""
    folder = setting.root / "tests" / "c" / "linked"
    flags = [LANGUAGES[language], *BUILT, *STRICT, *WAYS[way], "-I", str(setting.include)]
    objects = [setting.made / f"{it}-{compiler}-{way}.o" for it in ("main", "other")]
    for it in objects:
        run([compiler, *flags, "-x", language, "-c", folder / f"{it.name.partition('-')[0]}.c", "-o", it])
    for members in MEMBERS:
        program = setting.made / f"linked-{compiler}-{way}{members}"
        try:
            run([compiler, *WAYS[way], *objects, "-o", program, f"-Wl,{members}", setting.installed, "-Wl,--no-whole-archive"])
        except Failed as it:
            if way == "LTO" and any(word in str(it) for word in NO_LTO):
                return False
            raise
        run([program])
    return True


def calls_do_not_collide(setting: Setting) -> str:
    """Files that include the header are linked with the archive, which has the header's calls too, in C and C++, with -O0 and LTO."""
    compilers = [(it, language) for pair in COMPILERS.items() for it, language in zip(pair, LANGUAGES) if shutil.which(it)]
    if not compilers:
        raise LeftOut("no compiler is there")
    done = [f"{it} {way}" for it, language in compilers for way in WAYS if is_linked(setting, it, language, way)]
    return ", ".join(done)


def calls_are_found_by_name(setting: Setting) -> str:
    """The shared library is loaded and called by the names of the header's calls, as languages do that can't call inline functions."""
    calls = checked_calls(setting)
    words: list[str | Path] = [sys.executable, Path(__file__).with_name("by_name.py"), setting.shared, json.dumps(calls)]
    compare("the library's version", run(words, environment(setting)), f"{VERSION}\n")
    return f"{len(calls)} calls of {VERSION}"


def wanted_interface() -> str:
    """The end that the soname has to have. It is read from the version here, without the code that names the library."""
    major, minor, _ = VERSION.split(".")
    return f"{major}.{minor}" if major == "0" else major


def interface_of_soname(shared: Path) -> str:
    """The end of a shared library's soname."""
    need("objdump")
    found = re.search(r"^ +SONAME +libclickpull\.so\.([\d.]+)$", run(["objdump", "-p", shared]), re.MULTILINE)
    if found is None:
        raise Failed(f"{shared} has no soname that begins with libclickpull.so.")
    return found[1]


def soname_is_of_the_version(setting: Setting) -> str:
    """The soname changes where a version may break callers, so that no program loads a library that breaks it."""
    found = interface_of_soname(setting.shared)
    compare("the end of the soname", found, wanted_interface())
    return f"libclickpull.so.{found}"


CHECKS = [
    Check("the soname and the version", soname_is_of_the_version),
    Check("files linked with the archive", calls_do_not_collide),
    Check("the calls by their names", calls_are_found_by_name),
]
