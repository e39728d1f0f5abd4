"""Reads which licence the repository has, and writes it as Debian does. This is Python and no part of what is proved."""
import re
from dataclasses import dataclass

from making.library import Unmade
from making.sources import ROOT

# What Debian calls a licence where SPDX has another name.
OF_DEBIAN = {"MIT": "Expat"}

# The licences of which each Debian system has the text.
COMMON = ("Apache-2.0",)

COPYRIGHT = """Format: https://www.debian.org/doc/packaging-manuals/copyright-format/1.0/
Upstream-Name: Joistdock

Files: *
Copyright: {holders}
License: {names}
"""


@dataclass(frozen=True)
class Licence:
    """A licence: its SPDX expression, and who holds the copyright since when."""

    expression: str
    holders: str

    @property
    def names(self) -> list[str]:
        """The licences among which one chooses, as SPDX names them."""
        return self.expression.split(" OR ")


def licence() -> Licence:
    """What the file LICENSE says."""
    text = (ROOT / "LICENSE").read_text()
    expression = re.search(r"^SPDX-License-Identifier: (.+)$", text, re.MULTILINE)
    holders = re.search(r"^Copyright \(c\) (.+)$", text, re.MULTILINE)
    if expression is None or holders is None:
        raise Unmade("LICENSE has no SPDX-License-Identifier, or names no holder of the copyright")
    return Licence(expression[1].strip(), holders[1].strip())


def stanza(name: str) -> str:
    """What Debian's file says of a licence: its text, or where that is."""
    named = OF_DEBIAN.get(name, name)
    if name in COMMON:
        text = f"On Debian systems the text is in /usr/share/common-licenses/{name}."
    else:
        text = (ROOT / f"LICENSE-{name.split('-')[0].upper()}").read_text()
    return f"\nLicense: {named}\n" + "".join(f" {line or '.'}\n" for line in text.strip().splitlines())


def for_debian() -> str:
    """Debian's file on whose the package is, and what one may do with it."""
    it = licence()
    names = " or ".join(OF_DEBIAN.get(name, name) for name in it.names)
    return COPYRIGHT.format(holders=it.holders, names=names) + "".join(map(stanza, it.names))
