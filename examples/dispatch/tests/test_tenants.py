"""Tests of reading tenants from a tree. They stand outside what is proved."""
from pathlib import Path

import pytest

from clickpull import Router
from fair.tenants import QUANTUM, Tenant, tenants_of

EXAMPLES = Path(__file__).resolve().parents[2]


def test_names_and_weights() -> None:
    assert tenants_of((EXAMPLES / "dispatch" / "tenants.click").read_text()) == [
        Tenant("alerts", 0, None, 0),
        Tenant("physics", 1, "shares", 200_000),
        Tenant("biology", 2, "shares", 100_000),
        Tenant("guests", 3, "shares", 100_000),
    ]


def test_all_forms_of_a_tree() -> None:
    tree = """b /* c */ :: Sender(7); a :: // d :: Sender(9);
    Sender ( 5 ); p,q::Queue; s :: DRRSched(30,40); d :: ToDevice(x);
    b [0] -> p [0] -> [ 1 ] s -> d; a->q; q->[0]s"""
    Router(tree)
    assert tenants_of(tree) == [Tenant("a", 5, "s", 30), Tenant("b", 7, "s", 40)]


@pytest.mark.parametrize("arguments, weights", [("", QUANTUM), ("(9)", 9)])
def test_one_quantum_is_for_all(arguments: str, weights: int) -> None:
    tree = f"a :: Sender(0); b :: Sender(1); p, q :: Queue; s :: DRRSched{arguments}; d :: ToDevice(x); a -> p -> s -> d; b -> q -> [1] s;"
    Router(tree)
    assert [it.weight for it in tenants_of(tree)] == [weights, weights]


def test_a_queue_has_one_tenant() -> None:
    with pytest.raises(ValueError, match="queue of its own"):
        tenants_of("a :: Sender(0); b :: Sender(1); q :: Queue; d :: ToDevice(x); a -> q -> d; b -> q;")


@pytest.mark.parametrize("tree", sorted(EXAMPLES.glob("*/*.click")) + sorted(EXAMPLES.glob("*.click")), ids=str)
def test_examples_have_the_tenants_that_the_library_knows(tree: Path) -> None:
    text = tree.read_text()
    with Router(text) as router:
        accounts = router.accounts()
    if len({it.queue for it in accounts}) == len(accounts):
        assert [it.number for it in tenants_of(text)] == [it.sender for it in accounts]
