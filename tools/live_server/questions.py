"""Questions that tables of SQLite have to answer as the server does: order, comparisons, the
greatest value and sums of random values of each type."""

from __future__ import annotations

import bisect
import datetime
import decimal
import random
import sqlite3
import struct
from collections.abc import Callable
from decimal import Decimal
from fractions import Fraction
from pathlib import Path
from typing import NamedTuple

from .cluster import Cluster
from .errors import Failed
from .feeds import has, reading
from .rows import literal, quoted

TABLE = "compared"
# Of a sum: by how much it may differ, as a share of the sum of the magnitudes.
SHARE = Fraction(1, 10**12)
# How many values each column is compared with.
PIVOTS = 12
LETTERS = "aAbBzZ09_-' \t~éß漢😀"
EPOCH = datetime.datetime(1, 1, 1)
SECONDS = 3652059 * 86400
SAFE = 1 << 49


def placed(number: int, scale: int) -> str:
    return f"{Decimal(f'{number}e{-scale}'):f}"


def numeric(precision: int, scale: int) -> Callable[[random.Random], str]:
    def drawn(rng: random.Random) -> str:
        number = rng.choice(
            (rng.randrange(10**precision), rng.randrange(30), 10**precision - 1)
        )
        return rng.choice(("", "-")) + placed(number, scale)

    return drawn


def any_numeric(rng: random.Random) -> str:
    """Some differ in their last digits alone, or in how many there are."""
    if rng.random() < 0.05:
        return rng.choice(("NaN", "1.0", "1.00", "0", "0.000"))
    if rng.random() < 0.2:
        return f"0.1{'0' * rng.randrange(18, 22)}{rng.randrange(100)}"
    number = rng.randrange(10 ** rng.randrange(1, 40))
    return rng.choice(("", "-")) + placed(number, rng.randrange(40))


def number_of(form: str, limit: float) -> Callable[[random.Random], str]:
    def drawn(rng: random.Random) -> str:
        if rng.random() < 0.1:
            return rng.choice(("NaN", "Infinity", "-Infinity", "-0", "0", "1", "0.1", "0.5"))
        while True:
            value: float = struct.unpack(form, rng.randbytes(struct.calcsize(form)))[0]
            if 1 / limit < abs(value) < limit:
                return repr(value)

    return drawn


def moment(rng: random.Random) -> str:
    if rng.random() < 0.02:
        return rng.choice(("infinity", "-infinity"))
    within = 100 if rng.random() < 0.3 else SECONDS
    told = EPOCH + datetime.timedelta(seconds=rng.randrange(within))
    digits = rng.randrange(7)
    return f"{told.isoformat(' ')}.{rng.randrange(10**digits):0{digits}d}" if digits else str(told)


def zoned(rng: random.Random) -> str:
    text = moment(rng)
    return text if "infinity" in text else f"{text}+00"


def words(rng: random.Random) -> str:
    return "".join(rng.choices(LETTERS, k=rng.randrange(5)))


class Kind(NamedTuple):
    """A type: its name, what draws a value as the server reads it, and how one is written for
    SQLite. `adds`: it has a sum; `rounded`: different values may be one; `since`: the server's
    first version."""

    name: str
    draw: Callable[[random.Random], str]
    written: Callable[[str], str] = literal
    adds: bool = False
    rounded: bool = False
    since: int = 13


def number(text: str) -> str:
    return text


KINDS = (
    Kind("smallint", lambda it: str(it.randrange(-1 << 15, 1 << 15)), number, True),
    Kind("integer", lambda it: str(it.randrange(-1 << 31, 1 << 31)), number, True),
    Kind("bigint", lambda it: str(it.randrange(-1 << 63, 1 << 63)), number),
    Kind("bigint", lambda it: str(it.randrange(-SAFE, SAFE)), number, True),
    Kind("numeric(10,2)", numeric(10, 2), number, True),
    Kind("numeric(15,0)", numeric(15, 0), number, True),
    Kind("numeric(15,15)", numeric(15, 15), number, True),
    Kind("numeric(3,5)", numeric(3, 5), number, True, since=15),
    Kind("numeric(3,-20)", numeric(3, -20), number, True, since=15),
    Kind("numeric", any_numeric, number, True, True),
    Kind("numeric(30,10)", numeric(30, 10), number, True, True),
    Kind("numeric(10,2)", lambda it: it.choice(("NaN", numeric(10, 2)(it))), number),
    Kind(
        "numeric",
        lambda it: it.choice(("Infinity", "-Infinity", numeric(9, 3)(it))),
        number,
        since=14,
    ),
    Kind("real", number_of(">f", 1e30), number, True),
    Kind("double precision", number_of(">d", 1e100), number, True),
    Kind("boolean", lambda it: it.choice("tf"), lambda it: str(int(it == "t"))),
    Kind('text COLLATE "C"', words),
    Kind('varchar(9) COLLATE "C"', words),
    Kind(
        "bytea", lambda it: "\\x" + it.randbytes(it.randrange(4)).hex(), lambda it: f"x'{it[2:]}'"
    ),
    Kind("date", lambda it: moment(it)[:10]),
    Kind("timestamp", moment),
    Kind("timestamptz", zoned),
    Kind("time", lambda it: "24:00:00" if it.random() < 0.01 else moment_of_day(it)),
    Kind(
        "uuid", lambda it: it.choice(("00000000", it.randbytes(4).hex())) + it.randbytes(12).hex()
    ),
)


def moment_of_day(rng: random.Random) -> str:
    text = f"{datetime.timedelta(seconds=rng.randrange(86400))}".rjust(8, "0")
    return text + rng.choice(("", f".{rng.randrange(10**6):06d}"))


def kinds_of(cluster: Cluster) -> list[Kind]:
    return [it for it in KINDS if it.since <= cluster.installed.version]


def fill(cluster: Cluster, count: int, seed: str, database: str = "shop", first: int = 0) -> None:
    """Adds so many rows to the table, which is made with the first ones."""
    rng, kinds = random.Random(f"compared {seed} {first}"), kinds_of(cluster)
    columns = ", ".join(f"c{at} {it.name}" for at, it in enumerate(kinds))
    with cluster.connect(database) as session:
        if not first:
            session.run(f"CREATE TABLE {TABLE} (id int PRIMARY KEY, {columns})")
        with session.raw.cursor() as cursor, cursor.copy(f"COPY {TABLE} FROM STDIN") as copy:
            for row in range(first, first + count):
                copy.write_row([row, *(it.draw(rng) for it in kinds)])


class Column:
    """One column on both sides: of each row its rank among all values."""

    def __init__(
        self, at: int, kind: Kind, server: list[tuple[str, str, int]], base: sqlite3.Connection
    ) -> None:
        self.name, self.kind, self.base = f"c{at}", kind, base
        self.texts = {int(row): text for row, text, _ in server}
        self.theirs = {int(row): rank for row, _, rank in server}
        self.ranks = sorted(self.theirs.values())
        query = f"SELECT id, dense_rank() OVER (ORDER BY {self.name}) FROM {TABLE}"
        self.ours: dict[int, int] = dict(base.execute(query))

    def fail(self, why: str) -> Failed:
        return Failed(f"{self.name} {self.kind.name}: {why}")

    def check_order(self) -> None:
        """Fails where two rows are in another order, or are equal on one side alone. (Values that
        are rounded may be equal.)"""
        if self.ours.keys() != self.theirs.keys():
            raise self.fail("other rows")
        rows = sorted(self.theirs, key=lambda it: (self.theirs[it], self.ours[it]))
        for one, two in zip(rows, rows[1:]):
            there, here = self.theirs[two] - self.theirs[one], self.ours[two] - self.ours[one]
            is_right = here >= 0 if self.kind.rounded and there else (here > 0) == (there > 0)
            if here < 0 or not is_right:
                raise self.fail(f"{self.texts[one]!r} and {self.texts[two]!r} are in another order")

    def check_greatest(self) -> None:
        query = f"SELECT id FROM {TABLE} WHERE {self.name} = (SELECT max({self.name}) FROM {TABLE})"
        found = {row for (row,) in self.base.execute(query)}
        greatest = max(self.theirs.values())
        wanted = {row for row, rank in self.theirs.items() if rank == greatest}
        if not (found >= wanted if self.kind.rounded else found == wanted):
            raise self.fail(
                f"max is in the rows {sorted(found)[:5]} in place of {sorted(wanted)[:5]}"
            )

    def check_pivots(self, rng: random.Random) -> None:
        """Compares with values as they are written in a query."""
        for row in rng.sample(sorted(self.texts), min(PIVOTS, len(self.texts))):
            text, rank = self.texts[row], self.theirs[row]
            if text in ("NaN", "Infinity", "-Infinity"):
                continue
            value = self.kind.written(text)
            less, equal = self.base.execute(
                f"SELECT sum({self.name} < {value}), sum({self.name} = {value}) FROM {TABLE}"
            ).fetchone()
            below = bisect.bisect_left(self.ranks, rank)
            same = bisect.bisect_right(self.ranks, rank) - below
            is_right = (less, equal) == (below, same)
            if self.kind.rounded:
                is_right = less <= below and below + same <= less + equal
            if not is_right:
                raise self.fail(
                    f"{less} < {value} and {equal} = {value} in place of {below} and {same}"
                )

    def check_sum(self) -> None:
        finite = [it for it in self.texts.values() if it.lstrip("-")[0] not in "NI"]
        with decimal.localcontext(decimal.Context(prec=1000)):
            exact = sum(map(Decimal, finite), Decimal())
            most = sum((abs(Decimal(it)) for it in finite), Decimal())
        (found,) = self.base.execute(
            f"SELECT sum({self.name}) FROM {TABLE} WHERE typeof({self.name}) <> 'text' AND abs({self.name}) < 9e999"
        ).fetchone()
        if abs(Fraction(found) - Fraction(exact)) > SHARE * Fraction(most):
            raise self.fail(f"the sum {found} in place of {float(exact)}")

    def check_division(self) -> None:
        """Fails where a number that isn't whole on the server is one here."""
        integers = f"SELECT count(*) FROM {TABLE} WHERE typeof({self.name}) = 'integer'"
        is_whole = has(self.kind.name)[0][0] == "INTEGER"
        if self.base.execute(integers).fetchone() != (len(self.texts) if is_whole else 0,):
            raise self.fail("integers are among the values")


def compare(cluster: Cluster, path: Path, seed: str, database: str = "shop") -> str:
    """Fails where a file answers otherwise than the server. Returns how much was asked."""
    rng, kinds = random.Random(f"pivots {seed}"), kinds_of(cluster)
    with cluster.connect(database) as session, reading(path) as base:
        session.run("SET timezone = 'UTC'")
        for at, kind in enumerate(kinds):
            name = quoted(f"c{at}")
            rows = session.copied(
                f"SELECT id, {name}, dense_rank() OVER (ORDER BY {name}) FROM {TABLE}"
            )
            server = [(row or "", text or "", int(rank or 0)) for row, text, rank in rows]
            column = Column(at, kind, server, base)
            column.check_order()
            column.check_greatest()
            column.check_pivots(rng)
            column.check_division()
            if kind.adds:
                column.check_sum()
    return f"{len(kinds)} columns of {len(server)} values"
