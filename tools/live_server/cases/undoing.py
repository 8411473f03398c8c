"""Rows that `pgsub-feed --undo` takes back: values of each kind, and columns."""

from __future__ import annotations

from ..place import Place
from .case import Case
from .taking_back import ANOTHER, GENERATED, Scenario, check_all, keyed, keyless

CI = "CREATE COLLATION ci (provider = icu, locale = 'und-u-ks-level2', deterministic = false)"
VALUES = (
    Scenario(
        "'' beside NULL",
        "t1",
        keyless("t1", "a int, b text", "(9, NULL)"),
        ("INSERT INTO t1 VALUES (9, '')",),
    ),
    Scenario(
        "NULL beside ''",
        "t2",
        keyless("t2", "a int, b text", "(9, '')"),
        ("INSERT INTO t2 VALUES (9, NULL)",),
    ),
    Scenario(
        "'' that somebody made NULL",
        "t3",
        keyed("t3", "a int PRIMARY KEY, b text", "(1, 'x')"),
        ("UPDATE t3 SET b = ''",),
        ANOTHER,
        ("UPDATE t3 SET b = NULL",),
    ),
    Scenario(
        "NULL that somebody made ''",
        "t4",
        keyed("t4", "a int PRIMARY KEY, b text", "(1, 'x')"),
        ("UPDATE t4 SET b = NULL",),
        ANOTHER,
        ("UPDATE t4 SET b = ''",),
    ),
    Scenario(
        "a row of nulls beside NULL",
        "t5",
        ("CREATE TYPE pair AS (a int, b text)", *keyless("t5", "a int, p pair", "(1, NULL)")),
        ("INSERT INTO t5 VALUES (1, ROW(NULL, NULL))",),
    ),
    Scenario(
        "NULL beside a row of nulls",
        "t6",
        keyless("t6", "a int, p pair", "(1, ROW(NULL, NULL))", "(2, ROW(1, ''))"),
        ("INSERT INTO t6 VALUES (1, NULL)", "DELETE FROM t6 WHERE a = 2"),
    ),
    Scenario(
        "json, point, box",
        "t7",
        keyless("t7", "j json, p point, b box", "('{\"a\":  1}', '(1,2)', '(1,2),(0,0)')"),
        ("DELETE FROM t7", "INSERT INTO t7 VALUES ('{\"a\": 1}', '(1,3)', NULL)"),
    ),
    Scenario(
        "json of another text",
        "t8",
        keyed("t8", "a int PRIMARY KEY, j json", "(1, 'null')"),
        ("UPDATE t8 SET j = '{\"a\": 1}'",),
        ANOTHER,
        ("UPDATE t8 SET j = '{\"a\":1}'",),
    ),
    Scenario(
        "citext",
        "t9",
        (
            "CREATE EXTENSION IF NOT EXISTS citext",
            *keyed("t9", "k citext PRIMARY KEY, v citext", "('A', 'b')", "('X', 'y')"),
        ),
        ("UPDATE t9 SET k = 'a', v = 'B' WHERE k = 'A'", "DELETE FROM t9 WHERE k = 'X'"),
    ),
    Scenario(
        "citext of another case",
        "t10",
        keyed("t10", "k int PRIMARY KEY, v citext", "(1, 'b')"),
        ("UPDATE t10 SET v = 'c'",),
        ANOTHER,
        ("UPDATE t10 SET v = 'C'",),
    ),
    Scenario(
        "a collation that ignores case",
        "t11",
        (CI, *keyless("t11", "v text COLLATE ci", "('A')")),
        ("INSERT INTO t11 VALUES ('a')",),
    ),
    Scenario(
        "scales",
        "t12",
        keyed("t12", "k numeric PRIMARY KEY, n numeric", "(1.0, 2.00)", "(3, 3)"),
        (
            "UPDATE t12 SET n = 2.0 WHERE k = 1",
            "UPDATE t12 SET k = 1 WHERE k = 1",
            "DELETE FROM t12 WHERE k = 3",
        ),
    ),
    Scenario(
        "another scale",
        "t13",
        keyed("t13", "k int PRIMARY KEY, n numeric", "(1, 2.00)"),
        ("UPDATE t13 SET n = 1.0",),
        ANOTHER,
        ("UPDATE t13 SET n = 1.00",),
    ),
    Scenario(
        "settings of who takes it back",
        "t14",
        keyed(
            "t14",
            "k int PRIMARY KEY, i interval, m money, a text[], d date",
            "(1, '-1 days -02:03:04', 12.5, '{x,NULL}', '2026-02-01')",
        ),
        ("DELETE FROM t14",),
        session=(
            "SET intervalstyle = 'sql_standard'",
            "SET datestyle = 'SQL, DMY'",
            "SET array_nulls = off",
            "SET timezone = 'Asia/Tokyo'",
        ),
    ),
)

COLUMNS = (
    Scenario(
        "columns that aren't published",
        "t1",
        keyed("t1", "id int PRIMARY KEY, a int, secret text DEFAULT 'd'", "(1, 2, 's')"),
        ("DELETE FROM t1",),
        "the feed doesn't have the values of secret",
        columns="id, a",
        since=150000,
    ),
    Scenario(
        "a column that was dropped",
        "t2",
        keyed("t2", "id int PRIMARY KEY, a int, b text", "(1, 2, 's')"),
        ("DELETE FROM t2",),
        "doesn't have the columns any more: b",
        ("ALTER TABLE t2 DROP b",),
    ),
    Scenario(
        "a column that was added",
        "t3",
        keyed("t3", "id int PRIMARY KEY, a int", "(1, 2)"),
        ("DELETE FROM t3",),
        "the feed doesn't have the values of b",
        ("ALTER TABLE t3 ADD b text",),
    ),
    Scenario(
        "stored generated columns",
        "t4",
        keyed(
            "t4",
            "id int PRIMARY KEY, a int, b int GENERATED ALWAYS AS (a * 2) STORED, c text",
            "(1, 2)",
            "(2, 3)",
        ),
        (
            "DELETE FROM t4 WHERE id = 1",
            "UPDATE t4 SET a = 7, c = 'x' WHERE id = 2",
            "INSERT INTO t4 VALUES (4, 5)",
        ),
    ),
    Scenario(
        "virtual generated columns",
        "t5",
        keyed(
            "t5",
            "id int PRIMARY KEY, a int, b int GENERATED ALWAYS AS (a * 2) VIRTUAL",
            "(1, 2)",
            "(2, 3)",
        ),
        (
            "DELETE FROM t5 WHERE id = 1",
            "UPDATE t5 SET a = 7 WHERE id = 2",
            "INSERT INTO t5 VALUES (4, 5)",
        ),
        since=GENERATED,
    ),
    Scenario(
        "identity columns in the key",
        "t6",
        (
            "CREATE TABLE t6 (id int GENERATED ALWAYS AS IDENTITY PRIMARY KEY, a int)",
            "INSERT INTO t6 (a) VALUES (1), (2)",
        ),
        (
            "DELETE FROM t6 WHERE id = 1",
            "UPDATE t6 SET a = 7 WHERE id = 2",
            "INSERT INTO t6 (a) VALUES (9)",
        ),
    ),
    Scenario(
        "identity columns beside the key",
        "t7",
        (
            "CREATE TABLE t7 (k int PRIMARY KEY, id int GENERATED ALWAYS AS IDENTITY, a int)",
            "INSERT INTO t7 (k, a) VALUES (1, 1), (2, 2)",
        ),
        ("DELETE FROM t7 WHERE k = 1;; INSERT INTO t7 (k, a) VALUES (1, 5)",),
    ),
    Scenario(
        "a domain whose check needs the search path",
        "t8",
        (
            "CREATE FUNCTION good(int) RETURNS bool LANGUAGE sql AS 'SELECT $1 > 0'",
            "CREATE FUNCTION fits(int) RETURNS bool LANGUAGE plpgsql AS"
            " 'BEGIN RETURN good($1); END'",
            "CREATE DOMAIN small AS int CHECK (public.fits(VALUE))",
            *keyed("t8", "id int PRIMARY KEY, d small", "(1, 5)"),
        ),
        ("DELETE FROM t8",),
        session=("SET search_path = public",),
    ),
)


def values(place: Place) -> None:
    """Rows are taken for the commits' where their values have the same texts; null is none."""
    check_all(place, VALUES)


def columns(place: Place) -> None:
    """Generated and identity columns are as they were; all columns have to be known."""
    check_all(place, COLUMNS)


CASES = (
    Case("values-taken-back", values),
    Case("columns-taken-back", columns),
)
