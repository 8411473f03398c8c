"""Values of each type, in rows and in keys: in an export, in tables that follow a feed, and taken
back at the publisher."""

from __future__ import annotations

import contextlib
import sqlite3
from pathlib import Path
from typing import Tuple

from ..errors import Failed
from ..feeds import compare_tables, tables_of_server
from ..follower import wait_until
from ..place import Place
from ..rows import literal, quoted
from .case import Case
from .common import now_in_tables, position_of, rows_file, undo

# By type: values as SQL has them, of which no two are equal. NULL comes to each.
TYPES: dict[str, tuple[str, ...]] = {
    "int2": ("-32768", "32767", "0"),
    "int4": ("-2147483648", "2147483647", "0"),
    "int8": ("-9223372036854775808", "9223372036854775807", "0", "9007199254740993"),
    "numeric": (
        "1.0",
        "'NaN'",
        "123456789012345678901234567890.123456789",
        "-0.000",
        "1e-20",
        "1e40",
        "0.1000000000000000001",
        "0.1000000000000000002",
    ),
    "numeric(12, 2)": ("1", "-0.5", "9999999999.99"),
    "float4": (
        "0.1",
        "'NaN'",
        "-3.4028235e38",
        "1e-45",
        "'Infinity'",
        "'-Infinity'",
        "'-0'",
        "16777216",
        "1234567",
    ),
    "float8": (
        "'-0'",
        "'Infinity'",
        "'-Infinity'",
        "'NaN'",
        "0.1",
        "5e-324",
        "1.7976931348623157e308",
        "9007199254740993",
        "1e15",
        "1e-5",
    ),
    "bool": ("true", "false"),
    "text": (
        "''",
        "'ä 漢 😀'",
        r"E'a\nb\tc\rd\\e\"f\''",
        "'NULL'",
        r"'\N'",
        "'  blanks  '",
        "'12'",
        "'1.0'",
        r"'\x00'",
    ),
    "varchar(5)": ("'abc  '", "'12'", "''"),
    "char(5)": ("'ab'", "''", "'12345'"),
    '"char"': ("'x'", "''"),
    "name": ("'n'", "''", f"'{63 * 'x'}'"),
    "bytea": (r"'\x00ff6a'", "''", r"'\x5c78'", "'ascii'"),
    "date": ("'2026-11-25'", "'infinity'", "'-infinity'", "'0044-03-15 BC'", "'5874897-12-31'"),
    "time": ("'24:00'", "'00:00:00.000001'", "'09:30'"),
    "timetz": ("'24:00+05:30'", "'00:00:00.000001-15:59'", "'09:30+00'"),
    "timestamp": (
        "'2026-11-25 09:30'",
        "'-infinity'",
        "'infinity'",
        "'294276-12-31 23:59:59.999999'",
        "'4713-01-01 00:00 BC'",
    ),
    "timestamptz": ("'2026-11-25 09:30+05'", "'infinity'", "'-infinity'", "'0001-01-01 00:00 BC'"),
    "interval": ("'1 year -2 days 3.5 seconds'", "'0'", "'-178000000 years'", "'-00:00:01'"),
    "uuid": ("'a0eebc99-9c0b-4ef8-bb6d-6bb9bd380a11'", "'00000000-0000-0000-0000-000000000000'"),
    "json": ('\'{"b": 1,  "a":2, "a": null}\'', "'null'", "'[]'", r"""'"\u00e4\n"'"""),
    "jsonb": ('\'{"b": 1,  "a":2}\'', "'1.10'", "'null'", "'[]'", "'\"\"'"),
    "xml": ("'<a>ä</a>'", "'text'", "''"),
    "inet": ("'::1/64'", "'10.0.0.1'", "'10.0.0.1/8'"),
    "cidr": ("'10.0.0.0/8'", "'2001:db8::/32'"),
    "macaddr": ("'08:00:2b:01:02:03'", "'00:00:00:00:00:00'"),
    "macaddr8": ("'08:00:2b:01:02:03:04:05'",),
    "bit(3)": ("B'101'", "B'000'"),
    "varbit": ("B'101'", "B''"),
    "money": ("12.5", "-1", "'92233720368547758.07'"),
    "oid": ("4294967295", "0", "1"),
    "regclass": ("'pg_class'", "0", "4294967295"),
    "pg_lsn": ("'0/0'", "'FFFFFFFF/FFFFFFFF'"),
    "point": ("'(0.1,2)'", "'(-0,NaN)'"),
    "box": ("'(2,2),(0.1,0)'",),
    "int4[]": ("'{1,NULL,3}'", "'{}'", "'{{1},{2}}'", "'[0:1]={7,8}'"),
    "text[]": ("ARRAY['a,b', '\"', NULL, 'NULL', '', '{}', E'\\\\']", "'{}'"),
    "int4range": ("'[1,5)'", "'empty'", "'(,5)'", "'(,)'"),
    "tsvector": ("'a fat cat'", "''", "$$'it''s':1A,2$$"),
    "tsquery": ("'fat & !cat'", "''"),
    "mood": ("'sad'", "'so so'", "''"),
    "mood[]": ("'{sad,\"so so\",NULL}'", "'{}'"),
    "positive": ("1", "2"),
    "blob": (r"'\x00ff'", "''"),
    "pair": ("ROW(1, 'a b')", "ROW(NULL, NULL)", "ROW(2, E'\",\\\\')"),
}
# By the server's first version that has them.
LATER: dict[int, dict[str, tuple[str, ...]]] = {
    14: {"numeric": ("'Infinity'", "'-Infinity'"), "int4multirange": ("'{[1,5),[7,8)}'", "'{}'")},
}
# Those that can't be keys.
UNORDERED = ("json", "xml", "point", "box")
HSTORE = {"hstore": ("'a=>1, \"b c\"=>NULL'", "''")}
MADE = (
    'CREATE SCHEMA "Odd schema"',
    "CREATE TYPE mood AS ENUM ('sad', 'so so', '')",
    "CREATE DOMAIN positive AS int CHECK (VALUE > 0)",
    "CREATE DOMAIN blob AS bytea",
    "CREATE TYPE pair AS (a int, b text)",
)
WHOLE, KINDS = '"Odd schema".whole', "kinds"


def types_of(place: Place) -> dict[str, tuple[str, ...]]:
    """The types that the server has, with their values."""
    found = dict(TYPES)
    for since, more in LATER.items():
        if place.options.installed.version >= since:
            found.update({kind: found.get(kind, ()) + values for kind, values in more.items()})
    if place.value("SELECT count(*) FROM pg_available_extensions WHERE name = 'hstore'") == "1":
        place.run("CREATE EXTENSION hstore")
        found.update(HSTORE)
    return found


class Made:
    """Tables of each type: `kinds` with a key of its own, one without a key, and one for each type
    that has it as its key."""

    def __init__(self, place: Place) -> None:
        self.place = place
        place.run(*MADE)
        self.types = types_of(place)
        self.columns = [f"c{at}" for at in range(len(self.types))]
        listed = ", ".join(f"{column} {kind}" for column, kind in zip(self.columns, self.types))
        self.keys = {
            f"key {at}": kind for at, kind in enumerate(self.types) if kind not in UNORDERED
        }
        place.run(
            f"CREATE TABLE {KINDS} (id int PRIMARY KEY, {listed})",
            f"CREATE TABLE {WHOLE} (n int, {listed})",
            f"ALTER TABLE {WHOLE} REPLICA IDENTITY FULL",
            *(
                f"CREATE TABLE {quoted(it)} (k {kind} PRIMARY KEY, n int)"
                for it, kind in self.keys.items()
            ),
            "CREATE PUBLICATION pgsub FOR ALL TABLES",
        )
        self.rows = 1 + max(map(len, self.types.values()))

    def row(self, number: int) -> str:
        """The values of a row: each type's own in turn, and NULL."""
        return ", ".join(
            (*values, "NULL")[number % (len(values) + 1)] for values in self.types.values()
        )

    def insert(self, part: int) -> None:
        """Adds each second row."""
        for number in range(part, self.rows, 2):
            self.place.run(f"INSERT INTO {KINDS} VALUES ({number}, {self.row(number)})")
            self.place.run(*2 * [f"INSERT INTO {WHOLE} VALUES ({number}, {self.row(number)})"])
        for name, kind in self.keys.items():
            for number, value in list(enumerate(self.types[kind]))[part::2]:
                self.place.run(f"INSERT INTO {quoted(name)} VALUES ({value}, {number})")

    def change(self) -> None:
        """Gives rows other keys, the values of other rows, and removes some."""
        columns = ", ".join(self.columns)
        some = f"ARRAY(SELECT ctid FROM {WHOLE} ORDER BY n {{}} LIMIT 3)"
        self.place.run(
            f"UPDATE {KINDS} SET id = id + 1000 WHERE id % 3 = 0",
            f"UPDATE {KINDS} it SET ({columns}) = (SELECT {columns} FROM {KINDS} o WHERE o.id = it.id + 1) WHERE id % 3 = 1",
            f"DELETE FROM {KINDS} WHERE id = 2",
            f"DELETE FROM {WHOLE} WHERE ctid = ANY ({some.format('')})",
            f"UPDATE {WHOLE} SET n = n + 100 WHERE ctid = ANY ({some.format('DESC')})",
        )
        for name, kind in self.keys.items():
            first, *_ = self.types[kind]
            self.place.run(
                f"DELETE FROM {quoted(name)} WHERE n = 0",
                f"UPDATE {quoted(name)} SET k = {first} WHERE n = 1",
                f"UPDATE {quoted(name)} SET n = n + 100",
            )

    def check(self, path: Path) -> None:
        """Fails where a file's tables aren't the server's, or not STRICT with their keys."""
        compare_tables(self.place.cluster, path, "pgsub", database=self.place.database)
        # (rounded numbers are no keys)
        exact = {it: "k_text" if kind == "numeric" else "k" for it, kind in self.keys.items()}
        keys = {"kinds": "id", "Odd schema.whole": None, **exact}
        with contextlib.closing(sqlite3.connect(path)) as base:
            found: dict[str, Tuple[int, object]] = {
                name: (strict, key)
                for name, strict, key in base.execute(
                    "SELECT name, strict, (SELECT max(name) FROM pragma_table_info(l.name) WHERE pk) FROM pragma_table_list l"
                    " WHERE schema = 'main' AND name NOT LIKE 'sqlite_%' AND name NOT LIKE 'pgsub_%'"
                )
            }
        if found != {name: (1, key) for name, key in keys.items()}:
            raise Failed(f"tables that are STRICT, with their keys: {found}")


def export(place: Place, path: Path) -> Path:
    place.subcommand("export", "--store", str(place.store), "--into", str(path))
    return path


def types(place: Place) -> None:
    """Export and tables have what COPY prints of each type, of the first copy and of changes; and
    these are taken back as they were."""
    made = Made(place)
    made.insert(0)
    child = place.start("--create", "--tables", str(rows_file(place)))
    place.catch_up(child)
    wait_until(rows_file(place).exists, "making the tables", check=child.check)
    made.check(rows_file(place))
    made.insert(1)
    now_in_tables(place)
    made.check(rows_file(place))
    before, since = tables_of_server(place.cluster, "pgsub", database=place.database), position_of(
        place
    )
    made.change()
    now_in_tables(place)
    made.check(rows_file(place))
    made.check(export(place, place.folder / "export.db"))
    place.run(undo(place, since, position_of(place)))
    if tables_of_server(place.cluster, "pgsub", database=place.database) != before:
        raise Failed("what was taken back isn't as it was")
    place.catch_up(child)
    now_in_tables(place)
    made.check(rows_file(place))
    child.stop()
    place.equal()


def texts(place: Place) -> None:
    """With --text, all columns of an export are TEXT, as COPY prints them."""
    made = Made(place)
    made.insert(0)
    made.insert(1)
    place.follow("--create")
    path = place.folder / "export.db"
    place.subcommand(
        "export", "--text", "--table", KINDS, "--store", str(place.store), "--into", str(path)
    )
    with contextlib.closing(sqlite3.connect(path)) as base, place.cluster.connect(
        place.database
    ) as session:
        session.run("SET timezone = 'UTC'", "SET lc_monetary = 'C'", "SET search_path = ''")
        expected = sorted(
            session.copied(f"SELECT * FROM public.{KINDS}"), key=lambda it: int(it[0] or "")
        )
        found = base.execute(f"SELECT * FROM {KINDS} ORDER BY CAST(id AS INTEGER)").fetchall()
        others = base.execute(
            f"SELECT count(*) FROM pragma_table_info({literal(KINDS)}) WHERE type <> 'TEXT'"
        ).fetchone()
    if found != expected or others != (0,):
        raise Failed(f"{found} in place of {expected}")


CASES = (
    Case("values-of-each-type", types),
    Case("values-as-texts", texts),
)
