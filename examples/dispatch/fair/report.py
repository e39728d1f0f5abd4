"""Tells what became of the jobs of each tenant, as text and as HTML. It stands outside what is proved."""
from html import escape

from fair.account import NEXT, Row, State
from fair.front import Front
from fair.picture import draw
from fair.shares import Shares

COLUMNS = ("tenant", "submitted", *(it.value for it in State), "size", "got", "share")

# After how many seconds a page reloads itself.
REFRESH = 1

STYLE = """body { font-family: sans-serif; margin: 2em; max-width: 60em } table { border-collapse: collapse; margin-bottom: 1em }
td, th { padding: 0.2em 0.8em; text-align: right; border-bottom: 1px solid #ccc } td:first-child, th:first-child { text-align: left }"""


def lines(front: Front, all_of_them: list[Shares]) -> list[tuple[str, ...]]:
    """A line of words for each tenant, one for each column. Who has no DRRSched above the queue has no share."""
    parts: dict[str, tuple[str, str]] = {}
    for shares in all_of_them:
        last = shares.course()[-1]
        for tenant, got, share in zip(shares.tenants, last.got, last.share):
            total = max(last.total, 1)
            parts[tenant.name] = f"{100 * got / total:.1f} %", f"{100 * share / total:.1f} %"
    return [_line(row, parts.get(row.tenant, ("", ""))) for row in front.account.rows()]


def _line(row: Row, parts: tuple[str, str]) -> tuple[str, ...]:
    return (row.tenant, f"{row.submitted:,}", *(f"{row.states[it]:,}" for it in State), f"{row.size:,}", *parts)


def text(front: Front, all_of_them: list[Shares]) -> str:
    """The account as a table of text, and its sum."""
    table = [COLUMNS, *lines(front, all_of_them)]
    widths = [max(map(len, column)) for column in zip(*table)]
    told = ["  ".join([line[0].ljust(widths[0]), *(it.rjust(width) for it, width in zip(line[1:], widths[1:]))]).rstrip() for line in table]
    return "\n".join([*told, sums(front.account.rows())])


def sums(rows: list[Row]) -> str:
    """How many jobs were submitted in all, and what became of them."""
    counts = {it: sum(row.states[it] for row in rows) for it in State}
    told = [f"{count:,} {it.value}" for it, count in counts.items() if count or it not in NEXT]
    return f"{sum(it.submitted for it in rows):,} jobs: {', '.join(told)}"


def page(front: Front, all_of_them: list[Shares]) -> str:
    """The account as a page that reloads itself, with a picture of each scheduler's shares."""
    head = "".join(f"<th>{escape(it)}</th>" for it in COLUMNS)
    body = "".join("<tr>" + "".join(f"<td>{escape(it)}</td>" for it in line) + "</tr>\n" for line in lines(front, all_of_them))
    return (
        f'<!doctype html>\n<html lang="en">\n<meta charset="utf-8">\n<meta http-equiv="refresh" content="{REFRESH}">\n'
        f"<title>Jobs of each tenant</title>\n<style>{STYLE}</style>\n<h1>Jobs of each tenant</h1>\n"
        f"<table>\n<tr>{head}</tr>\n{body}</table>\n{''.join(map(draw, all_of_them))}</html>\n"
    )
