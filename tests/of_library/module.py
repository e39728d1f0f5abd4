"""The tests of the Python module. It stands outside what is proved."""
import shutil
import subprocess
import sys

from of_library.checks import Check, LeftOut, Setting, compare, run

# Where Debian's packages are.
DEBIAN = "/usr/bin/python3"


def python(*modules: str) -> str:
    """A Python that has these modules."""
    for it in (sys.executable, DEBIAN):
        asked = "import importlib.util, sys; sys.exit(not all(map(importlib.util.find_spec, sys.argv[1:])))"
        if shutil.which(it) and subprocess.run([it, "-c", asked, *modules], capture_output=True).returncode == 0:
            return it
    raise LeftOut(f"no Python has {' and '.join(modules)}")


def environment(setting: Setting) -> dict[str, str]:
    """With what Python finds the module, and the module the library."""
    return {"CLICKPULL_LIBRARY": str(setting.shared), "PYTHONPATH": str(setting.root / "python"), "PYTHONDONTWRITEBYTECODE": "1"}


def types_are_right(setting: Setting) -> str:
    """The types, by mypy."""
    folder = setting.root / "python"
    tests = sorted((folder / "tests").glob("*.py"))
    bench = setting.root / "bench" / "python_calls"
    words = ["-m", "mypy", "--config-file", "mypy.ini", "setup.py", "clickpull", *map(str, tests), str(bench)]
    return run([python("mypy"), *words], environment(setting), folder).strip()


def tests_pass(setting: Setting) -> str:
    """The tests, by pytest."""
    folder = setting.root / "python" / "tests"
    words = ["-m", "pytest", "-q", "-p", "no:cacheprovider", "."]
    return run([python("pytest"), *words], environment(setting), folder).strip().splitlines()[-1]


def installed_it_works(setting: Setting) -> str:
    """Installed by pip with a library beside it, it needs no other word of where that is."""
    interpreter = python("pip", "setuptools", "wheel")
    source, target = setting.made / "python", setting.made / "installed"
    shutil.copytree(setting.root / "python", source)
    shutil.copy(setting.shared, source / "clickpull")
    words = ["install", "-q", "--no-index", "--no-deps", "--no-build-isolation", "--target", str(target)]
    run([interpreter, "-m", "pip", *words, source], {"PIP_ROOT_USER_ACTION": "ignore"})
    tree = "a :: Sender(0); q :: Queue(1); d :: ToDevice(link); a -> q -> d;"
    asked = f"import clickpull; print(clickpull.__file__, clickpull.Router('{tree}').devices)"
    told = run([interpreter, "-c", asked], {"PYTHONPATH": str(target), "CLICKPULL_LIBRARY": ""}, setting.made)
    if not told.startswith(str(target)) or not told.endswith(" 1\n"):
        raise LeftOut(f"another module was found: {told}")
    return ""


def loader_is_asked_for_the_soname(setting: Setting) -> str:
    """The loader's library is taken by its soname, and a libclickpull.so without a number, which may be of any version, isn't."""
    alone, soname = setting.made / "alone", setting.shared.resolve().name
    shutil.copytree(setting.root / "python" / "clickpull", alone / "clickpull", ignore=shutil.ignore_patterns("libclickpull.so*", "__pycache__"))
    asked = "try: from clickpull.library import LIBRARY; print(LIBRARY._name)\nexcept ImportError: print('none')"
    for name, is_taken in (("libclickpull.so", False), (soname, True)):
        folder = setting.made / f"only-{name}"
        folder.mkdir()
        shutil.copy(setting.shared, folder / name)
        known = {"CLICKPULL_LIBRARY": "", "LD_LIBRARY_PATH": str(folder), "PYTHONPATH": str(alone), "PYTHONDONTWRITEBYTECODE": "1"}
        compare(f"whether {name} is loaded", run([sys.executable, "-c", asked], known) == f"{name}\n", is_taken)
    return soname


CHECKS = [
    Check("Python's types", types_are_right),
    Check("Python's tests", tests_pass),
    Check("Python, installed by pip", installed_it_works),
    Check("Python and the loader", loader_is_asked_for_the_soname),
]
