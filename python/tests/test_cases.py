"""The table of cases that all bindings carry out, through `clickpull.Router`. It stands outside what is proved."""
import pytest

from cases import Case, Player, cases

OF_ROUTERS = [it for it in cases() if not it.is_live]


@pytest.mark.parametrize("case", OF_ROUTERS, ids=[it.name for it in OF_ROUTERS])
def test_a_case(case: Case) -> None:
    player = Player(case)
    for line, words, answer in case.steps:
        assert (line, player.answer(words)) == (line, answer)


def test_there_are_cases() -> None:
    assert len(OF_ROUTERS) > 30 and all(it.steps for it in OF_ROUTERS)
