"""Tables that are altered at the server: their rows come anew beside the stream, unless that isn't
right for them."""

from __future__ import annotations

import time
from collections.abc import Callable
from signal import SIGKILL

from ..child import Child
from ..errors import Failed
from ..follower import remembered_of, wait_until
from ..place import Place
from .case import Case
from .common import changing, verified, verify

DONE = "copied anew beside what is followed"
TABLES = (
    "CREATE TYPE mood AS ENUM ('sad', 'ok')",
    "CREATE TABLE stock (sku int PRIMARY KEY, name text, price int, m mood)",
    "INSERT INTO stock SELECT it, 'name ' || it, it, 'sad' FROM generate_series(1, 3000) it",
    "CREATE TABLE other (id int PRIMARY KEY, a int, m mood)",
    "INSERT INTO other SELECT it, it, 'ok' FROM generate_series(1, 500) it",
    "CREATE PUBLICATION pgsub FOR ALL TABLES",
)
ALTERED = (
    "ALTER TABLE stock ADD COLUMN stock int NOT NULL DEFAULT 7",
    "ALTER TABLE stock RENAME COLUMN name TO title",
    "ALTER TABLE stock ALTER price TYPE numeric(10, 2)",
    "ALTER TABLE stock ADD COLUMN token text DEFAULT md5(random()::text)",
)


def begin(place: Place, *more: str) -> Child:
    """A follower of these tables, which heals."""
    place.run(*TABLES)
    place.on_alter = "refresh"
    child = place.start("--create", *more)
    place.catch_up(child)
    return child


def waits(child: Child, holds: Callable[[], bool], what: str) -> None:
    """Waits until something holds. What was said until then tells why it doesn't."""
    try:
        wait_until(holds, what, 60, child.check)
    except Failed as error:
        raise Failed(f"{error}: {child.said()}") from None


def touch(place: Place) -> None:
    place.run("UPDATE stock SET price = 1 WHERE sku = 5", "DELETE FROM other WHERE id = 9")


def is_healed(place: Place) -> bool:
    return not place.found() and not remembered_of(place.store)["outstanding"]["wanted"]


def left(place: Place) -> str:
    """What is found of tables, or still to be done about them."""
    remembered = remembered_of(place.store)
    return f"{remembered['found']} {remembered['outstanding']['wanted']}"


def healed(place: Place, child: Child) -> None:
    waits(child, lambda: is_healed(place), "mending the tables")
    place.catch_up(child)


def is_there_since(child: Child, text: str) -> bool:
    """Whether public.stock has come anew since a text was said."""
    lines = child.said().partition(text)[2].splitlines()
    return any("public.stock" in it and "is there, complete as of" in it for it in lines)


def ends_well(place: Place, child: Child) -> str:
    verify(place)
    place.catch_up(child)
    said = child.stop()
    place.equal()
    return said


def while_followed(place: Place) -> None:
    """A column with a default, constant or not, another name and another type: after each the
    copy has the server's rows, without a word of anybody."""
    child = begin(place)
    for at, command in enumerate(ALTERED, 1):
        place.run(command)
        touch(place)
        waits(child, lambda: child.said().count(DONE) == at, "beginning")
        healed(place, child)
        verify(place)
    if ends_well(place, child).count(DONE) != len(ALTERED):
        raise Failed(f"a table was copied anew more than once: {child.said()}")


def while_away(place: Place) -> None:
    """Several commands while nobody follows, of several tables, and labels, with rows between
    them: one copy of each is enough."""
    begin(place).stop()
    for command in (*ALTERED, "ALTER TYPE mood RENAME VALUE 'sad' TO 'blue'"):
        place.run(command)
        touch(place)
        place.run(f"INSERT INTO other VALUES ({1000 + len(command)}, 1, 'ok')")
    child = place.start("--strict")
    child.wait_for("public.other")
    healed(place, child)
    if ends_well(place, child).count(DONE) != 1:
        raise Failed(f"it isn't done in one turn: {child.said()}")
    # (nothing is left to be done)
    if DONE in place.follow("--strict"):
        raise Failed("it goes on with it")


def labels_within(place: Place) -> None:
    """A label that was renamed is mended where it is within an array, a domain, a range or a
    composite type, and nothing is done about one that was added."""
    place.run(
        "CREATE TYPE tone AS ENUM ('sad', 'ok')",
        "CREATE DOMAIN moods AS tone[]",
        "CREATE TYPE span AS RANGE (subtype = tone)",
        "CREATE TYPE pair AS (a int, b moods)",
    )
    types = ("tone[]", "moods", "span", "pair", "int[]")
    values = ("{sad}", "{sad}", "[sad,sad]", '(1,"{sad,ok}")', "{1}")
    for at, (kind, value) in enumerate(zip(types, values)):
        place.run(
            f"CREATE TABLE within{at} (id int PRIMARY KEY, it {kind})",
            f"INSERT INTO within{at} SELECT it, '{value}' FROM generate_series(1, 20) it",
        )
    child = begin(place)
    place.run("ALTER TYPE tone ADD VALUE 'fine'", "INSERT INTO within0 VALUES (30, '{fine}')")
    place.catch_up(child)
    child.stop()
    place.run("ALTER TYPE tone RENAME VALUE 'sad' TO 'blue'")
    child = place.start()
    child.wait_for("4 tables altered, copied anew beside what is followed")
    healed(place, child)
    verify(place)
    if ends_well(place, child).count(DONE) != 1 or "within4" in child.said():
        raise Failed(f"other tables are copied anew too: {child.said()}")


def not_done(place: Place) -> None:
    """A label that was added, and a column that is null in the rows that are there, make nothing
    wrong: nothing is copied, nothing is told."""
    child = begin(place, "--strict")
    place.run(
        "ALTER TYPE mood ADD VALUE 'fine'",
        "ALTER TABLE stock ADD COLUMN note text",
        "ALTER TABLE other ADD COLUMN b int DEFAULT NULL, ADD COLUMN c text",
        "ALTER TABLE other ALTER b SET DEFAULT 3",
    )
    place.run(
        "INSERT INTO stock VALUES (9000, 'n', 1, 'fine', 'a note')",
        "UPDATE stock SET note = 'x' WHERE sku < 10",
        "INSERT INTO other (id) VALUES (9000)",
    )
    place.catch_up(child)
    waits(child, lambda: child.said().count("right as they are") == 2, "a look")
    said = ends_well(place, child)
    again = place.follow("--strict")
    if DONE in said + again or place.found() or "begins anew" in said + again:
        raise Failed(f"found {place.found()}: {said}; {again}")
    place.equal()


def not_beside(place: Place, child: Child, why: str) -> None:
    """A table isn't copied anew unasked, which is told."""
    place.run(ALTERED[0])
    touch(place)
    place.catch_up(child)
    child.wait_for(why)
    place.finds("values", "refresh --store", child.said())


def above_the_limit(place: Place) -> None:
    """One that is larger than it may be is told, with what mends it."""
    child = begin(place, "--on-alter-max-bytes", "64kB")
    not_beside(place, child, "above --on-alter-max-bytes 65536")
    words = ("--dsn", place.dsn(), "--store", str(place.store))
    place.subcommand("refresh", *words, "--yes")
    healed(place, child)
    if DONE in ends_well(place, child):
        raise Failed("it was copied unasked")


def told_alone(place: Place) -> None:
    """So it is of all where that was asked for."""
    place.run(*TABLES)
    child = place.start("--create")
    place.catch_up(child)
    place.run(ALTERED[0])
    touch(place)
    place.catch_up(child)
    child.wait_for("found: values")
    if DONE in child.stop() or "values" not in place.found():
        raise Failed(f"found {place.found()}: {child.said()}")
    place.on_alter = "refresh"
    child = place.start()
    healed(place, child)
    ends_well(place, child)


def synchronous(place: Place) -> None:
    """Where commits wait for the follower it is told, and nothing is held up. Once they don't, the
    next session does it."""
    child = begin(place)
    place.set(synchronous_standby_names="pgsub")
    not_beside(place, child, "commits at the server wait for the follower")
    began = time.monotonic()
    for _ in range(10):
        touch(place)
    if time.monotonic() - began > 20:
        raise Failed(f"ten commits took {time.monotonic() - began:.1f} seconds")
    child.stop()
    place.set(synchronous_standby_names="")
    child = place.start()
    healed(place, child)
    ends_well(place, child)


def killed(place: Place) -> None:
    """The follower is killed at each step, and the table is altered again meanwhile, and dropped:
    the next one goes on."""
    child = begin(place)
    place.run("INSERT INTO stock SELECT it, 'n' FROM generate_series(10000, 60000) it")
    place.catch_up(child)
    steps = (DONE, "begins anew", "rows as of", "is there, complete as of")
    for step, command in zip(steps, ALTERED):
        place.run(command)
        touch(place)
        child.wait_for(step, 120)
        child.signal(SIGKILL)
        child.end()
        touch(place)
        child = place.start()
    healed(place, child)
    verify(place)
    place.run("ALTER TABLE other ADD COLUMN z int DEFAULT 3", "UPDATE other SET a = 0 WHERE id = 1")
    child.wait_for("public.other")
    place.run("ALTER TABLE stock ADD COLUMN z int DEFAULT 3", "DROP TABLE other")
    place.run("UPDATE stock SET price = 3 WHERE sku = 7")
    child.wait_for("column z of public.stock")
    waits(child, lambda: is_there_since(child, "column z of public.stock"), "mending the table")
    waits(child, lambda: "public.stock" not in left(place), "keeping that it is mended")
    # (of the table that was dropped rows may stay, which is told)
    verify(place)
    child.stop()


def under_load(place: Place) -> None:
    """Tables are altered while changes of every kind are made."""
    place.on_alter = "refresh"
    with changing(place, "heal") as child:
        names = place.value(
            "SELECT string_agg(relname, ' ' ORDER BY relname) FROM pg_class WHERE relkind = 'r' AND relnamespace = 'public'::regnamespace"
        ).split()
        for name in names[:3]:
            place.run(f"ALTER TABLE {name} ADD COLUMN healed int DEFAULT 7")
            time.sleep(2)
    healed(place, child)
    verified(place)
    if child.stop().count(DONE) > 9:
        raise Failed(f"tables were copied again and again: {child.said()}")
    place.equal()


CASES = (
    Case("altered-while-followed", while_followed),
    Case("altered-while-away", while_away),
    Case("altered-within-other-types", labels_within),
    Case("altered-and-right", not_done),
    Case("altered-above-the-limit", above_the_limit),
    Case("altered-and-told", told_alone),
    Case("altered-and-synchronous", synchronous),
    Case("altered-and-killed", killed),
    Case("altered-under-load", under_load),
)
