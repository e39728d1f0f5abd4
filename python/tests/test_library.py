"""Tests of how the shared library is found. They stand outside what is proved."""
import re

import pytest

from clickpull import library

NAME = re.escape(library.LIBRARY._name)
VERSION = library.LIBRARY.clk_version().decode()
MAJOR, MINOR, PATCH = map(int, VERSION.split("."))


def test_another_library(monkeypatch: pytest.MonkeyPatch) -> None:
    monkeypatch.setenv(library.VARIABLE, "libc.so.6")
    with pytest.raises(ImportError, match="^clickpull: libc.so.6 isn't clickpull's shared library: it has no clk_version$"):
        library.loaded()


def test_a_library_without_a_call(monkeypatch: pytest.MonkeyPatch) -> None:
    monkeypatch.setitem(library.CALLS, "clk_router_new", ([], None))
    with pytest.raises(ImportError, match=f"^clickpull: {NAME} isn't clickpull's shared library: it has no clk_router_new$"):
        library.loaded()


def test_a_library_of_another_patch(monkeypatch: pytest.MonkeyPatch) -> None:
    monkeypatch.setattr(library, "__version__", f"{MAJOR}.{MINOR}.{PATCH + 1}")
    assert library.loaded().clk_version().decode() == VERSION


@pytest.mark.parametrize("wanted", [f"{MAJOR}.{MINOR + 1}", f"{MAJOR}.{MINOR}0", f"{MAJOR + 1}.{MINOR}"])
def test_a_library_of_another_version(wanted: str, monkeypatch: pytest.MonkeyPatch) -> None:
    monkeypatch.setattr(library, "__version__", f"{wanted}.0")
    with pytest.raises(ImportError, match=f"^clickpull: {NAME} has version {VERSION}, and the module needs {wanted}$"):
        library.loaded()
