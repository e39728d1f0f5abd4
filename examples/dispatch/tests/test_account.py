"""Tests of the account. They stand outside what is proved."""
import pytest

from fair.account import Account, State, Work, WrongMove

WAITING, IN_FLIGHT, DONE, REFUSED, FAILED = State.WAITING, State.IN_FLIGHT, State.DONE, State.REFUSED, State.FAILED


def work(tenant: str = "a", size: int = 10) -> Work:
    return Work(tenant, size, print, (), 0)


def entered(account: Account, *states: State) -> Work:
    """A job that was entered, and then moved on."""
    it = work()
    account.enter(it)
    for state in states:
        account.move(it, state)
    return it


def test_each_job_is_in_one_state() -> None:
    account = Account(["a", "b"])
    for states in ((), (IN_FLIGHT,), (IN_FLIGHT, DONE), (IN_FLIGHT, FAILED), (REFUSED,)):
        entered(account, *states)
    a, b = account.rows()
    assert (a.submitted, b.submitted) == (5, 0) and a.adds_up and b.adds_up
    assert {it: a.states[it] for it in State} == dict.fromkeys(State, 1)
    assert a.size == 30 and account.waiting("a") == 1 and len(account.unsettled()) == 2


@pytest.mark.parametrize("states", [(REFUSED,), (IN_FLIGHT, DONE), (IN_FLIGHT, FAILED)])
def test_a_job_is_settled_once(states: tuple[State, ...]) -> None:
    account = Account(["a"])
    it = entered(account, *states)
    before = account.rows()
    for again in State:
        with pytest.raises(WrongMove):
            account.move(it, again)
    with pytest.raises(WrongMove):
        account.enter(it)
    assert account.rows() == before and not account.unsettled()


def test_no_move_skips_a_state() -> None:
    account = Account(["a"])
    with pytest.raises(WrongMove):
        account.move(work(), WAITING)
    for wrong in (WAITING, DONE, FAILED):
        with pytest.raises(WrongMove):
            account.move(entered(account), wrong)
    for wrong in (WAITING, IN_FLIGHT, REFUSED):
        with pytest.raises(WrongMove):
            account.move(entered(account, IN_FLIGHT), wrong)


def test_a_row_that_lost_a_job_does_not_add_up() -> None:
    account = Account(["a"])
    entered(account)
    row = account.rows()[0]
    row.states[WAITING] = 0
    assert not row.adds_up


def test_watchers_see_each_move() -> None:
    account = Account(["a"])
    seen: list[tuple[Work, State | None]] = []
    account.watch(lambda it: seen.append((it, it.state)))
    it = entered(account, IN_FLIGHT, DONE)
    assert seen == [(it, WAITING), (it, IN_FLIGHT), (it, DONE)]
