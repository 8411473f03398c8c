"""Rows that `pgsub-feed --undo` takes back while others refer to them, or triggers see them."""

from __future__ import annotations

from ..place import Place
from .case import Case
from .taking_back import Scenario, check_all, keyed, keyless

REFERS = "refers to it, isn't taken back"


def family(number: int, action: str = "ON DELETE CASCADE ON UPDATE CASCADE") -> tuple[str, ...]:
    return (
        *keyed(f"p{number}", "id int PRIMARY KEY, v text", "(1, 'a')", "(2, 'b')"),
        *keyed(
            f"c{number}",
            f"id int PRIMARY KEY, p int REFERENCES p{number} {action}",
            "(10, 1)",
            "(11, 1)",
            "(12, 2)",
        ),
    )


REFERENCES = (
    Scenario("a cascade", "p1", family(1), ("DELETE FROM p1 WHERE id = 1",), also=("c1",)),
    Scenario(
        "a key that is changed by a cascade",
        "p2",
        family(2),
        ("UPDATE p2 SET id = 3 WHERE id = 1",),
        also=("c2",),
    ),
    Scenario(
        "parents and children both ways",
        "p3",
        family(3, "ON DELETE RESTRICT"),
        (
            "INSERT INTO p3 VALUES (5);; INSERT INTO c3 VALUES (20, 5)",
            "UPDATE c3 SET p = 5 WHERE p = 1;; DELETE FROM p3 WHERE id = 1",
        ),
        also=("c3",),
    ),
    Scenario(
        "constraints that are deferred",
        "p4",
        family(4, "DEFERRABLE INITIALLY DEFERRED"),
        (
            "INSERT INTO c4 VALUES (20, 5);; INSERT INTO p4 VALUES (5)",
            "DELETE FROM p4 WHERE id = 1;; DELETE FROM c4 WHERE p = 1",
        ),
        also=("c4",),
    ),
    Scenario(
        "a row that would go by a cascade",
        "p5",
        family(5),
        ("INSERT INTO p5 VALUES (5)",),
        REFERS,
        ("INSERT INTO c5 VALUES (30, 5)",),
        also=("c5",),
    ),
    Scenario(
        "a row that would lose its parent",
        "p6",
        family(6, "ON DELETE SET NULL"),
        ("INSERT INTO p6 VALUES (5)",),
        REFERS,
        ("INSERT INTO c6 VALUES (30, 5)",),
        also=("c6",),
    ),
    Scenario(
        "a row that has to have its parent",
        "p7",
        family(7, ""),
        ("INSERT INTO p7 VALUES (5)",),
        "violates foreign key constraint",
        ("INSERT INTO c7 VALUES (30, 5)",),
        also=("c7",),
    ),
    Scenario(
        "children that aren't chosen",
        "p8",
        family(8),
        ("UPDATE p8 SET id = 3 WHERE id = 1",),
        REFERS,
        also=("c8",),
        chosen="p8",
    ),
    Scenario(
        "a table that refers to itself",
        "n1",
        keyed(
            "n1",
            "id int PRIMARY KEY, up int REFERENCES n1 ON DELETE CASCADE",
            "(1, NULL)",
            "(2, 1)",
            "(3, 2)",
        ),
        ("DELETE FROM n1 WHERE id = 1", "INSERT INTO n1 VALUES (1, NULL), (2, 1)"),
    ),
    Scenario(
        "tables in a circle",
        "a1",
        (
            "CREATE TABLE a1 (id int PRIMARY KEY, b int)",
            "CREATE TABLE b1 (id int PRIMARY KEY, a int REFERENCES a1)",
            "ALTER TABLE a1 ADD FOREIGN KEY (b) REFERENCES b1",
            "INSERT INTO a1 VALUES (1)",
            "INSERT INTO b1 VALUES (1, 1)",
            "UPDATE a1 SET b = 1",
        ),
        (
            "UPDATE a1 SET b = NULL;; DELETE FROM b1;; DELETE FROM a1",
            "INSERT INTO a1 VALUES (7, NULL)",
        ),
        also=("b1",),
    ),
    Scenario(
        "unique values that move",
        "u1",
        keyed("u1", "id int PRIMARY KEY, u int UNIQUE", "(1, 1)", "(2, 2)", "(3, 3)", "(4, 4)"),
        (
            "UPDATE u1 SET u = -u;; UPDATE u1 SET u = 1 - u",
            "UPDATE u1 SET u = 9 WHERE id = 1;; UPDATE u1 SET u = 2 WHERE id = 2;; "
            "UPDATE u1 SET u = 3 WHERE id = 1",
        ),
    ),
    Scenario(
        "keys that are swapped",
        "u2",
        keyed("u2", "id int PRIMARY KEY, v text", "(1, 'a')", "(2, 'b')"),
        (
            "UPDATE u2 SET id = 3 WHERE id = 1;; UPDATE u2 SET id = 1 WHERE id = 2;; "
            "UPDATE u2 SET id = 2 WHERE id = 3",
        ),
    ),
    Scenario(
        "a key that somebody has taken",
        "u3",
        keyed("u3", "id int PRIMARY KEY, v text", "(1, 'a')"),
        ("DELETE FROM u3",),
        "there is a row with this key by now",
        ("INSERT INTO u3 VALUES (1, 'mine')",),
    ),
    Scenario(
        "partitions and their children",
        "m1",
        (
            "CREATE TABLE m1 (id int PRIMARY KEY, w text) PARTITION BY RANGE (id)",
            "CREATE TABLE m1_low PARTITION OF m1 FOR VALUES FROM (0) TO (50)",
            "CREATE TABLE m1_high (w text, id int PRIMARY KEY)",
            "ALTER TABLE m1 ATTACH PARTITION m1_high FOR VALUES FROM (50) TO (100)",
            "CREATE TABLE mc1 (id int PRIMARY KEY, m int REFERENCES m1 ON DELETE CASCADE)",
            "INSERT INTO m1 SELECT it, 'w' || it FROM generate_series(1, 99) it",
            "INSERT INTO mc1 SELECT it, it FROM generate_series(40, 60) it",
        ),
        (
            "DELETE FROM m1 WHERE id BETWEEN 45 AND 55",
            "UPDATE m1 SET id = 0 WHERE id = 70",
            "UPDATE m1 SET w = 'x' WHERE id > 90",
        ),
        also=("mc1",),
    ),
    Scenario(
        "a partition's row that would go by a cascade",
        "m2",
        (
            "CREATE TABLE m2 (id int PRIMARY KEY) PARTITION BY RANGE (id)",
            "CREATE TABLE m2_low PARTITION OF m2 FOR VALUES FROM (0) TO (50)",
            "CREATE TABLE mc2 (id int PRIMARY KEY, m int REFERENCES m2 ON DELETE CASCADE)",
        ),
        ("INSERT INTO m2 VALUES (1)",),
        REFERS,
        ("INSERT INTO mc2 VALUES (1, 1)",),
        also=("mc2",),
    ),
)


def trigger(name: str, when: str, table: str, body: str) -> tuple[str, ...]:
    return (
        f"CREATE FUNCTION {name}() RETURNS trigger LANGUAGE plpgsql AS $$ BEGIN {body} END $$",
        f"CREATE TRIGGER {name} {when} ON {table} FOR EACH ROW EXECUTE FUNCTION {name}()",
    )


CHANGES = "a trigger or a foreign key changes the restored row"
ONE = ("id int PRIMARY KEY, v text", "(1, 'x')")
TRIGGERS = (
    Scenario(
        "a trigger before the row",
        "t1",
        keyed("t1", *ONE),
        ("DELETE FROM t1",),
        CHANGES,
        trigger("g1", "BEFORE INSERT", "t1", "NEW.v = upper(NEW.v); RETURN NEW;"),
    ),
    Scenario(
        "a trigger before a row without a key",
        "t2",
        keyless("t2", "id int, v text", "(1, 'x')"),
        ("DELETE FROM t2",),
        CHANGES,
        trigger("g2", "BEFORE INSERT", "t2", "NEW.v = upper(NEW.v); RETURN NEW;"),
    ),
    Scenario(
        "a trigger after the row",
        "t3",
        keyed("t3", *ONE),
        ("UPDATE t3 SET v = 'y'",),
        CHANGES,
        trigger("g3", "AFTER UPDATE", "t3", "UPDATE t3 SET v = 'z' WHERE v = 'x'; RETURN NULL;"),
    ),
    Scenario(
        "a trigger at the commit",
        "t4",
        keyed("t4", *ONE),
        ("DELETE FROM t4",),
        CHANGES,
        (
            "CREATE FUNCTION g4() RETURNS trigger LANGUAGE plpgsql AS"
            " $$ BEGIN UPDATE t4 SET v = 'z'; RETURN NULL; END $$",
            "CREATE CONSTRAINT TRIGGER g4 AFTER INSERT ON t4 DEFERRABLE INITIALLY DEFERRED"
            " FOR EACH ROW EXECUTE FUNCTION g4()",
        ),
    ),
    Scenario(
        "a trigger that keeps the row",
        "t5",
        keyed("t5", *ONE),
        ("INSERT INTO t5 VALUES (2, 'y')",),
        "a trigger keeps it",
        trigger("g5", "BEFORE DELETE", "t5", "RETURN NULL;"),
    ),
    Scenario(
        "a trigger that has the row again",
        "t6",
        keyed("t6", *ONE),
        ("INSERT INTO t6 VALUES (2, 'y')",),
        "a trigger keeps it",
        trigger(
            "g6", "AFTER DELETE", "t6", "INSERT INTO t6 VALUES (OLD.id, 'again'); RETURN NULL;"
        ),
    ),
    Scenario(
        "a trigger that changes nothing",
        "t7",
        keyed("t7", *ONE),
        ("DELETE FROM t7",),
        meanwhile=trigger("g7", "AFTER INSERT", "t7", "UPDATE t7 SET v = v; RETURN NULL;"),
    ),
    Scenario(
        "a trigger that needs the search path",
        "app.t8",
        (
            "CREATE SCHEMA app",
            *keyed("app.t8", *ONE),
            "CREATE TABLE app.log (id serial PRIMARY KEY, n text)",
        ),
        ("DELETE FROM app.t8",),
        meanwhile=trigger(
            "g8",
            "AFTER INSERT",
            "app.t8",
            "INSERT INTO log (n) VALUES (current_setting('datestyle')); RETURN NULL;",
        ),
        session=("SET search_path = app, public", "SET datestyle = 'German'"),
        also=("app.log",),
        beside=("log",),
    ),
)


def references(place: Place) -> None:
    """Rows are as they were whatever refers to them; none is changed that isn't taken back."""
    check_all(place, REFERENCES)


def triggers(place: Place) -> None:
    """Triggers find their settings, and what they change isn't committed."""
    check_all(place, TRIGGERS)


CASES = (
    Case("references-taken-back", references),
    Case("triggers-and-what-is-taken-back", triggers),
)
