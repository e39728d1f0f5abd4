"""What the tests of packaging compare with. This is Python and no part of what is proved."""
from making.library import Unmade
from of_library.checks import Failed, LeftOut, need

__all__ = ["Failed", "LeftOut", "compare", "need"]


def compare(what: str, found: object, wanted: object) -> None:
    """Fails where two differ."""
    if found != wanted:
        raise Unmade(f"{what}: {found!r}, where it has to be {wanted!r}")
