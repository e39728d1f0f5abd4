"""The machines for which the library is made, and their tools. This is Python and no part of what is proved."""
import platform
from dataclasses import dataclass

# What the compilers are called where they compile for another machine.
OF_GNU = {"cc": "gcc", "c++": "g++"}


@dataclass(frozen=True)
class Target:
    """A kind of machine: what Debian calls it, and how the names of tools and folders for it begin."""

    architecture: str
    system: str

    @property
    def processor(self) -> str:
        """What the kernel calls it."""
        return self.system.partition("-")[0]

    @property
    def triple(self) -> str:
        """What the toolchain calls it."""
        return f"{self.processor}-unknown-linux-gnu"

    @property
    def is_own(self) -> bool:
        """Whether this machine is one."""
        return platform.machine() == self.processor

    def tool(self, name: str) -> str:
        """What a compiler or one of its tools is called that works for it."""
        return name if self.is_own else f"{self.system}-{OF_GNU.get(name, name)}"

    @property
    def runner(self) -> list[str]:
        """What runs its programs: Debian's emulator, over the libraries that cross compilers have."""
        return [] if self.is_own else [f"qemu-{self.processor}", "-L", f"/usr/{self.system}"]

    def package(self, name: str) -> str:
        """Which package of Debian has a tool for it on other machines."""
        return f"{name}-{self.system.replace('_', '-')}"


AMD64, ARM64 = Target("amd64", "x86_64-linux-gnu"), Target("arm64", "aarch64-linux-gnu")
TARGETS = {it.architecture: it for it in (AMD64, ARM64)}

# This machine.
OWN = next((it for it in TARGETS.values() if it.is_own), AMD64)
