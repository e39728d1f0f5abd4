"""Tests of shares and of their picture. They stand outside what is proved."""
from xml.etree import ElementTree

from fair.account import Account, State, Work
from fair.picture import draw
from fair.shares import MOST_POINTS, Point, Shares, all_shares
from fair.tenants import Tenant

TWO = [Tenant("a", 0, "s", 200), Tenant("b", 1, "s", 100)]


def submitted(account: Account, tenant: str, size: int) -> Work:
    it = Work(tenant, size, print, (), 0)
    account.enter(it)
    return it


def test_backlogged_tenants_share_by_weight() -> None:
    account = Account(["a", "b", "c"])
    shares = Shares(account, TWO)
    first, second, third = submitted(account, "a", 30), submitted(account, "b", 60), submitted(account, "a", 12)
    other = submitted(account, "c", 1000)
    for it in (first, other, second, third):
        account.move(it, State.IN_FLIGHT)
        account.move(it, State.DONE)
    # Of the first two jobs a is due two thirds. Then b has no job, and a is due the whole of the third.
    assert shares.course() == [
        Point(0, (0, 0), (0, 0)), Point(30, (30, 0), (20, 10)), Point(90, (30, 60), (60, 30)), Point(102, (42, 60), (72, 30)),
        Point(102, (42, 60), (72, 30)),
    ]


def test_a_refused_job_counts_for_nobody() -> None:
    account = Account(["a", "b"])
    shares = Shares(account, TWO)
    account.move(submitted(account, "a", 30), State.REFUSED)
    assert shares.course()[-1] == Point(0, (0, 0), (0, 0))


def test_a_long_course_keeps_few_points() -> None:
    account = Account(["a", "b"])
    shares = Shares(account, TWO)
    for size in range(1, 5001):
        account.move(submitted(account, "a", size), State.IN_FLIGHT)
    course = shares.course()
    assert MOST_POINTS / 2 <= len(course) <= MOST_POINTS + 1
    totals = [it.total for it in course]
    assert totals[0] == 0 and totals == sorted(totals) and totals[-1] == 5000 * 5001 // 2


def test_each_scheduler_has_its_own() -> None:
    tenants = [*TWO, Tenant("c", 2, None, 0), Tenant("d", 3, "t", 5)]
    found = all_shares(Account(it.name for it in tenants), tenants)
    assert [[it.name for it in shares.tenants] for shares in found] == [["a", "b"], ["d"]]


def test_the_picture_has_a_line_and_a_share_for_each_tenant() -> None:
    account = Account(["a", "b"])
    shares = Shares(account, TWO)
    empty = ElementTree.fromstring(draw(shares))
    for tenant, size in (("a", 100), ("b", 50)):
        account.move(submitted(account, tenant, size), State.IN_FLIGHT)
    shares.mark("half & <way>")
    drawn = ElementTree.fromstring(draw(shares))
    for it in (empty, drawn):
        assert len(it.findall("{*}polyline")) == 4
    texts = [it.text for it in drawn.findall("{*}text")]
    assert "a, weight 200" in texts and "b, weight 100" in texts and "half & <way>" in texts
    # The line of a ends at the right, twice as high as that of b.
    ends = [it.get("points", "").split()[-1] for it in drawn.findall("{*}polyline")]
    assert (ends[0], ends[2]) == ("600.0,46.0", "600.0,168.0")
