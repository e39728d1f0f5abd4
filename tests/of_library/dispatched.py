"""The example of a dispatcher in front of a Dask cluster: its types, and its tests. It stands outside what is proved."""
import os
from pathlib import Path

from of_library.checks import Check, Setting, run
from of_library.module import environment, python


def folder(setting: Setting) -> Path:
    """Where the example is."""
    return setting.root / "examples" / "dispatch"


def types_are_right(setting: Setting) -> str:
    """The types, by mypy."""
    tests = sorted((folder(setting) / "tests").glob("*.py"))
    scripts = ["dispatch", str(setting.root / "bench" / "cluster")]
    words = ["--config-file", "mypy.ini", "--scripts-are-modules", "fair", *scripts, *map(str, tests)]
    return run([python("mypy"), "-m", "mypy", *words], environment(setting), folder(setting)).strip()


def tests_pass(setting: Setting) -> str:
    """The tests, by pytest. Dask is Debian's python3-distributed."""
    found = environment(setting)
    found["PYTHONPATH"] = os.pathsep.join([found["PYTHONPATH"], str(folder(setting))])
    words = ["-m", "pytest", "-q", "-p", "no:cacheprovider", "--capture=sys", "."]
    return run([python("pytest", "distributed"), *words], found, folder(setting) / "tests").strip().splitlines()[-1]


CHECKS = [
    Check("the types of the example with Dask", types_are_right),
    Check("the example with Dask", tests_pass),
]
