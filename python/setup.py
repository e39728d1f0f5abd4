"""Tags the wheel, and puts the texts of the licence beside this file, where packages take them from. All else is in pyproject.toml.

A wheel that carries the shared library is for this machine's platform, and any Python 3. The texts stand at the top of the repository.
"""
import shutil
from pathlib import Path

from setuptools import Distribution, setup

try:
    from setuptools.command.bdist_wheel import bdist_wheel
except ImportError:
    from wheel.bdist_wheel import bdist_wheel

HERE = Path(__file__).resolve().parent
CARRIES_LIBRARY = any((HERE / "clickpull").glob("libclickpull.so*"))


def put_licence() -> None:
    """Copies the texts of the licence from the folder above. An archive of the sources has them here already."""
    for it in ("LICENSE", "LICENSE-MIT", "LICENSE-APACHE"):
        if (HERE.parent / it).exists():
            shutil.copyfile(HERE.parent / it, HERE / it)


class Module(Distribution):
    """The module, which has compiled code where the library is beside it."""

    def has_ext_modules(self) -> bool:
        """Whether the wheel is for one platform."""
        return CARRIES_LIBRARY


class Wheel(bdist_wheel):
    """A wheel whose compiled code is no part of Python, so that any Python loads it."""

    def get_tag(self) -> tuple[str, str, str]:
        """The tag: which Python, which interface of it, and which platform."""
        _, _, platform = super().get_tag()
        return "py3", "none", platform


put_licence()
setup(distclass=Module, cmdclass={"bdist_wheel": Wheel})
