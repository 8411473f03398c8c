"""How `pgsub-feed --undo` is tried: what it takes back, and what it refuses, changing nothing."""

from __future__ import annotations

import dataclasses
from collections.abc import Sequence

import psycopg

from ..errors import Failed
from ..feeds import Tables, tables_of_server
from ..follower import wait_until
from ..place import Place
from .common import now_in_tables, position_of, rows_file, undo, wait

GENERATED = 180000


@dataclasses.dataclass(frozen=True)
class Scenario:
    """Tables that are made, commits that are taken back, and what somebody does meanwhile.

    `refused`: what the server says, where nothing is to be taken back. `session`: the settings of
    who takes it back. `chosen`: only the changes of this table are. `columns`: the only ones that
    are published of `table`. `beside`: tables in which triggers write, which aren't compared.
    """

    about: str
    table: str
    made: tuple[str, ...]
    bad: tuple[str, ...]
    refused: str = ""
    meanwhile: tuple[str, ...] = ()
    session: tuple[str, ...] = ()
    chosen: str = ""
    columns: str = ""
    also: tuple[str, ...] = ()
    beside: tuple[str, ...] = ()
    since: int = 0

    def tables(self) -> tuple[str, ...]:
        return (self.table, *self.also)


def state(place: Place, *beside: str) -> Tables:
    found = tables_of_server(place.cluster, "pgsub", database=place.database)
    return {it: rows for it, rows in found.items() if it[1] not in (*beside, "first")}


def now(place: Place) -> str:
    """Where all commits end so far, once the tables have them: those are sent by a commit after."""
    lsn = place.value("SELECT pg_current_wal_insert_lsn()")
    place.run("INSERT INTO first DEFAULT VALUES")
    wait(place, lsn)
    return lsn


def commit(place: Place, commands: Sequence[str]) -> None:
    """Each text is a transaction; its commands are set apart by `;;`."""
    for text in commands:
        several = text.split(";; ")
        place.run(*(several if len(several) == 1 else ["BEGIN", *several, "COMMIT"]))


def check(place: Place, it: Scenario) -> None:
    now(place)
    since, before = position_of(place), state(place, *it.beside)
    commit(place, it.bad)
    script = undo(place, since, now(place), *(["--table", it.chosen] if it.chosen else []))
    commit(place, it.meanwhile)
    bad = state(place, *it.beside)
    if bad == before and not it.meanwhile:
        raise Failed(f"{it.about}: nothing was changed")
    said = ""
    try:
        place.run(*it.session, script)
    except psycopg.Error as error:
        said = str(error)
    if it.refused not in said or bool(it.refused) != bool(said):
        raise Failed(
            f"{it.about}: {said or 'taken back'} in place of {it.refused or 'rows as before'}"
        )
    after, wanted = state(place, *it.beside), bad if it.refused else before
    if after != wanted:
        wrong = [name for name in {*after, *wanted} if after.get(name) != wanted.get(name)]
        told = [(name, wanted.get(name), after.get(name)) for name in wrong]
        raise Failed(f"{it.about}: it isn't as it was: {str(told)[:600]}")


def publish(place: Place, scenarios: Sequence[Scenario]) -> None:
    listed = ", ".join(
        f"{name}{f' ({it.columns})' if it.columns and name == it.table else ''}"
        for it in scenarios
        for name in it.tables()
    )
    generated = place.options.installed.version >= GENERATED
    more = " WITH (publish_generated_columns = stored)" if generated else ""
    place.run("CREATE TABLE first (id serial PRIMARY KEY)")
    place.run(f"CREATE PUBLICATION pgsub FOR TABLE first, {listed}{more}")


def check_all(place: Place, scenarios: Sequence[Scenario]) -> None:
    some = [it for it in scenarios if place.options.installed.version >= it.since]
    for it in some:
        place.run(*it.made)
    publish(place, some)
    child = place.start("--create", "--tables", str(rows_file(place)))
    place.catch_up(child)
    wait_until(rows_file(place).exists, "making the tables", check=child.check)
    for it in some:
        check(place, it)
    place.catch_up(child)
    now_in_tables(place)
    child.stop()


ANOTHER = "the row is another one by now"
FULL = "ALTER TABLE {0} REPLICA IDENTITY FULL"


def keyless(name: str, columns: str, *rows: str) -> tuple[str, ...]:
    made = f"CREATE TABLE {name} ({columns})", FULL.format(name)
    return (*made, *(f"INSERT INTO {name} VALUES {it}" for it in rows))


def keyed(name: str, columns: str, *rows: str) -> tuple[str, ...]:
    return (f"CREATE TABLE {name} ({columns})", *(f"INSERT INTO {name} VALUES {it}" for it in rows))
