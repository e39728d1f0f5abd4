"""Tests of the page and of the report. They stand outside what is proved."""
import re
from http.client import HTTPConnection
from urllib.error import HTTPError
from urllib.request import urlopen

import pytest

from clickpull import UnknownSender
from fair import report
from fair.front import Front, Refused
from fair.page import Page
from fair.shares import all_shares
from fakes import FakeClient

TREE = "a :: Sender(0); b :: Sender(1); p, q :: Queue(1); s :: DRRSched(9); d :: ToDevice(x); a -> p -> s -> d; b -> q -> [1] s;"


def test_the_page_is_made_anew_for_each_request() -> None:
    texts = iter(["one", "zwölf"])
    with Page(lambda: next(texts)) as page:
        assert page.address.startswith("http://127.0.0.1:")
        assert [urlopen(page.address).read().decode() for _ in range(2)] == ["one", "zwölf"]
        with pytest.raises(HTTPError, match="404"):
            urlopen(page.address + "other")
        port = int(page.address.split(":")[2].strip("/"))
    with pytest.raises(OSError):
        HTTPConnection("127.0.0.1", port, timeout=5).connect()


def test_a_port_is_taken_once() -> None:
    with Page(lambda: "") as page, pytest.raises(OSError):
        Page(lambda: "", int(page.address.split(":")[2].strip("/")))


def test_what_is_told() -> None:
    front = Front(FakeClient(), TREE, 1)
    shares = all_shares(front.account, front.tenants)
    front.submit("a", print, size=1)
    with pytest.raises(Refused):
        front.submit("a", print, size=1)
    with pytest.raises(UnknownSender):
        front.submit("<b>", print, size=1)
    assert report.text(front, shares).splitlines() == [
        "tenant  submitted  waiting  in flight  done  refused  failed  size    got  share",
        "a               2        1          0     0        1       0     0  0.0 %  0.0 %",
        "b               0        0          0     0        0       0     0  0.0 %  0.0 %",
        "2 jobs: 1 waiting, 0 done, 1 refused, 0 failed",
    ]
    page = report.page(front, shares)
    assert '<meta http-equiv="refresh" content="1">' in page and page.count("<svg") == 1
    cells = re.findall("<tr>(.*?)</tr>", page)[1]
    assert re.findall("<td>(.*?)</td>", cells) == ["a", "2", "1", "0", "0", "1", "0", "0", "0.0 %", "0.0 %"]
