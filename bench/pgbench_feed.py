"""A feed with the changes of pgbench's transactions: three rows that change, of which one or ten
are changed again and again, and one that comes."""

from __future__ import annotations

import random
from pathlib import Path

from feed_text import Column, Definition, Line, Writer

ACCOUNTS, TELLERS = 100000, 10
PADDING = " " * 84


def definition(oid: int, name: str, *columns: Column, letter: str = "d") -> Definition:
    return Definition(oid, "public", f"pgbench_{name}", letter, columns)


ACCOUNT = definition(
    1,
    "accounts",
    Column("aid", 23, -1, True),
    Column("bid", 23),
    Column("abalance", 23),
    Column("filler", 1042, 88),
)
TELLER = definition(
    2,
    "tellers",
    Column("tid", 23, -1, True),
    Column("bid", 23),
    Column("tbalance", 23),
    Column("filler", 1042, 88),
)
BRANCH = definition(
    3, "branches", Column("bid", 23, -1, True), Column("bbalance", 23), Column("filler", 1042, 92)
)
HISTORY = definition(
    4,
    "history",
    *(Column(name, 23) for name in ("tid", "bid", "aid", "delta")),
    Column("mtime", 1114),
    Column("filler", 1042, 26),
    letter="n",
)


def first_rows() -> list[Line]:
    tellers = [Line(TELLER, "c", None, teller(it, 0)) for it in range(1, TELLERS + 1)]
    accounts = [Line(ACCOUNT, "c", None, account(it, 0)) for it in range(1, ACCOUNTS + 1)]
    return [Line(BRANCH, "c", None, branch(0)), *tellers, *accounts]


def account(number: int, balance: int) -> list[str | None]:
    return [str(number), "1", str(balance), PADDING]


def teller(number: int, balance: int) -> list[str | None]:
    return [str(number), "1", str(balance), None]


def branch(balance: int) -> list[str | None]:
    return ["1", str(balance), None]


def write(folder: Path, transactions: int) -> None:
    """A feed of the first rows, in one commit, and of so many transactions."""
    folder.mkdir()
    writer, rng = Writer(folder), random.Random(1)
    accounts, tellers, total = dict[int, int](), dict[int, int](), 0
    writer.commit(writer.at + 0x100, first_rows())
    for _ in range(transactions):
        aid, tid = rng.randrange(1, ACCOUNTS + 1), rng.randrange(1, TELLERS + 1)
        delta = rng.randrange(-5000, 5001)
        was, of_teller = accounts.get(aid, 0), tellers.get(tid, 0)
        time = "2026-11-29 01:07:18.123456"
        came = [str(tid), "1", str(aid), str(delta), time, None]
        lines = [
            Line(ACCOUNT, "u", account(aid, was), account(aid, was + delta)),
            Line(TELLER, "u", teller(tid, of_teller), teller(tid, of_teller + delta)),
            Line(BRANCH, "u", branch(total), branch(total + delta)),
            Line(HISTORY, "c", None, came),
        ]
        writer.commit(writer.at + 0x100, lines)
        accounts[aid], tellers[tid], total = was + delta, of_teller + delta, total + delta
