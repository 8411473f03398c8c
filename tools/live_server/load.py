"""Transactions of every kind, at random, by several threads at once."""

from __future__ import annotations

import contextlib
import random
import threading
import time

import psycopg

from .cluster import Cluster
from .sessions import Session

SCHEMA = (
    "CREATE TABLE keyed (id int PRIMARY KEY, name text, note text)",
    "CREATE TABLE wide (id bigint, code text, big text, n numeric, flag boolean, at timestamptz, data jsonb, bytes bytea,"
    " PRIMARY KEY (id, code))",
    "ALTER TABLE wide ALTER big SET STORAGE EXTERNAL",
    "CREATE TABLE indexed (a int NOT NULL, b text NOT NULL, c float8, u int)",
    "CREATE UNIQUE INDEX indexed_a ON indexed (a) INCLUDE (c)",
    "ALTER TABLE indexed REPLICA IDENTITY USING INDEX indexed_a",
    "CREATE TABLE whole (word text, n float8, note text)",
    "ALTER TABLE whole REPLICA IDENTITY FULL",
    "ALTER TABLE whole ALTER note SET STORAGE EXTERNAL",
    "CREATE TABLE inserts (id int, word text)",
    "ALTER TABLE inserts REPLICA IDENTITY NOTHING",
    "CREATE TABLE bare (id int, double int GENERATED ALWAYS AS (2 * id) STORED, word text)",
    'CREATE SCHEMA "Größe, Maß"',
    'CREATE TABLE "Größe, Maß"."a ""quoted"" name" ("Das Ä" int PRIMARY KEY, "select" text[])',
    "CREATE TABLE parted (id int, word text, PRIMARY KEY (id)) PARTITION BY RANGE (id)",
    "CREATE TABLE parted_low PARTITION OF parted FOR VALUES FROM (MINVALUE) TO (1000)",
    "CREATE TABLE parted_high PARTITION OF parted FOR VALUES FROM (1000) TO (MAXVALUE)",
    "CREATE TABLE kept (id int PRIMARY KEY, word text, big text)",
    "CREATE TABLE altered (id int PRIMARY KEY, word varchar(80), n int)",
)
TABLES = (
    "keyed",
    "wide",
    "indexed",
    "whole",
    "inserts",
    "bare",
    '"Größe, Maß"."a ""quoted"" name"',
    "parted",
    "altered",
)
QUOTED = TABLES[6]
# Those that are published whole and that nobody alters, and each change of which a trigger of
# theirs sees.
LOGGED = ("keyed", "wide", "indexed", "whole", "inserts", "bare", "kept")
EXTERNAL = "(SELECT string_agg(md5(random()::text || it), '') FROM generate_series(1, {}) it)"


class Mix:
    """Makes statements."""

    def __init__(self, rng: random.Random, truncates: bool = True) -> None:
        self.rng, self.truncates = rng, truncates

    def attempt(self, session: Session) -> None:
        """Runs a statement that changes few rows. One that the server rejects is no fault."""
        with contextlib.suppress(psycopg.Error):
            session.run(self.one())

    def key(self) -> int:
        return self.rng.randint(1, 2000)

    def word(self) -> str:
        words = (
            "",
            "it''s",
            "a\tb",
            "back\\\\slash",
            "Ünïcödé 漢字 🐘",
            "\\\\N",
            "x" * 200,
            "line\nbreak",
        )
        return self.rng.choice((*words, *(f"word {self.rng.randint(1, 60)}" for _ in words)))

    def big(self) -> str:
        return EXTERNAL.format(self.rng.choice((80, 200, 600)))

    def one(self) -> str:
        """A statement that changes few rows."""
        rng, key, word = self.rng, self.key(), self.word()
        return rng.choice(
            (
                f"INSERT INTO keyed VALUES ({key}, '{word}', NULL) ON CONFLICT (id) DO UPDATE SET name = excluded.name",
                f"INSERT INTO keyed VALUES ({key}, '{word}', '{word}') ON CONFLICT DO NOTHING",
                f"UPDATE keyed SET note = '{word}' WHERE id BETWEEN {key} AND {key + 20}",
                f"UPDATE keyed SET id = id + {rng.choice((5000, 10000))} WHERE id = {key}",
                f"DELETE FROM keyed WHERE id BETWEEN {key} AND {key + 5}",
                f"INSERT INTO wide VALUES ({key}, '{word}', {self.big()}, {rng.random()}, {rng.choice(('true', 'NULL'))},"
                f" now(), '{{\"k\": [{key}, null]}}', '\\x00ff{key:04x}') ON CONFLICT DO NOTHING",
                f"UPDATE wide SET n = n + 1, flag = NOT flag WHERE id BETWEEN {key} AND {key + 60}",
                f"UPDATE wide SET code = code || 'k' WHERE id BETWEEN {key} AND {key + 20} AND length(code) < 250",
                f"UPDATE wide SET big = {self.big()} WHERE id = {key}",
                f"DELETE FROM wide WHERE id BETWEEN {key} AND {key + 30}",
                f"INSERT INTO indexed VALUES ({key}, '{word}', random(), {rng.choice(('NULL', '7'))}) ON CONFLICT DO NOTHING",
                f"UPDATE indexed SET c = c / 3, b = '{word}' WHERE a BETWEEN {key} AND {key + 20}",
                f"UPDATE indexed SET a = a + 3000 WHERE a = {key}",
                f"DELETE FROM indexed WHERE a BETWEEN {key} AND {key + 10}",
                f"INSERT INTO whole SELECT '{word}', {key % 7}, NULL FROM generate_series(1, {rng.randint(1, 4)})",
                f"INSERT INTO whole VALUES ('{word}', NULL, {self.big()})",
                f"UPDATE whole SET n = n + 1 WHERE ctid IN (SELECT ctid FROM whole LIMIT {rng.randint(1, 4)})",
                f"UPDATE whole SET word = '{word}' WHERE word = '{self.word()}' AND n = {key % 7}",
                f"DELETE FROM whole WHERE ctid IN (SELECT ctid FROM whole ORDER BY random() LIMIT {rng.randint(1, 5)})",
                f"INSERT INTO inserts VALUES ({key}, '{word}')",
                f"INSERT INTO bare (id, word) VALUES ({key % 10}, '{word}')",
                f"INSERT INTO {QUOTED} VALUES ({key}, ARRAY['{word}', NULL]) ON CONFLICT DO NOTHING",
                f'DELETE FROM {QUOTED} WHERE "Das Ä" < {key}',
                f"INSERT INTO parted VALUES ({key}, '{word}') ON CONFLICT DO NOTHING",
                f"UPDATE parted SET id = 2001 - id WHERE id = {key}",
                f"UPDATE kept SET word = '{word}' WHERE id BETWEEN {key} AND {key + 3}",
                f"UPDATE kept SET id = id + 1000000 WHERE id = {key}",
                f"DELETE FROM kept WHERE id = {key}",
                f"INSERT INTO altered (id, word, n) VALUES ({key}, left('{word}', 40), {key}) ON CONFLICT DO NOTHING",
                f"UPDATE altered SET n = n + 1 WHERE id BETWEEN {key} AND {key + 10}",
                f"DELETE FROM altered WHERE id = {key}",
                f"SELECT pg_logical_emit_message({rng.choice(('true', 'false'))}, 'live', 'a message')",
            )
        )

    def many(self) -> str:
        """A statement that changes many rows, above what the server decodes in memory."""
        rng, key, count = self.rng, self.key(), self.rng.randint(300, 1500)
        return rng.choice(
            (
                f"INSERT INTO keyed SELECT it, md5(it::text), NULL FROM generate_series({key}, {key + count}) it"
                " ON CONFLICT DO NOTHING",
                f"INSERT INTO keyed SELECT it, 'again', NULL FROM generate_series({key}, {key + count}) it"
                " ON CONFLICT (id) DO UPDATE SET name = 'again'",
                f"UPDATE keyed SET note = md5(id::text) WHERE id BETWEEN {key} AND {key + count}",
                f"DELETE FROM keyed WHERE id > {key}",
                f"INSERT INTO wide SELECT it, 'many', repeat('0123456789', 300), it, NULL, now(), NULL, NULL"
                f" FROM generate_series({key}, {key + count // 4}) it ON CONFLICT DO NOTHING",
                f"DELETE FROM wide WHERE id > {key}",
                f"INSERT INTO indexed SELECT it, 'b', it / 7.0, NULL FROM generate_series({key}, {key + count}) it"
                " ON CONFLICT DO NOTHING",
                f"DELETE FROM indexed WHERE a > {key}",
                f"INSERT INTO whole SELECT 'copies', it % 5, NULL FROM generate_series(1, {count}) it",
                f"DELETE FROM whole WHERE n > {rng.randint(0, 4)}",
                f"INSERT INTO inserts SELECT it, 'many' FROM generate_series(1, {count}) it",
                f"INSERT INTO parted SELECT it, 'many' FROM generate_series({key}, {key + count}) it ON CONFLICT DO NOTHING",
                f"DELETE FROM parted WHERE id > {key}",
                f"INSERT INTO altered (id, word) SELECT it, 'many' FROM generate_series({key}, {key + count // 4}) it"
                " ON CONFLICT DO NOTHING",
            )
        )

    def truncation(self) -> str:
        if not self.truncates:
            return self.one()
        tables = self.rng.sample(TABLES, self.rng.choice((1, 1, 2, 3)))
        return (
            f"TRUNCATE {', '.join(tables)}{self.rng.choice(('', ' RESTART IDENTITY', ' CASCADE'))}"
        )

    def some(self) -> list[str]:
        """A few statements."""
        rng = self.rng
        return [
            self.many() if rng.random() < 0.25 else self.one()
            for _ in range(rng.choice((1, 1, 2, 4, 8)))
        ]

    def nested(self, depth: int = 0) -> list[str]:
        """Statements with subtransactions, of which some are rolled back."""
        rng, statements = self.rng, []
        for _ in range(rng.randint(1, 4)):
            statements += self.some()
            if depth < 3 and rng.random() < 0.7:
                name = f"s{depth}"
                statements += [f"SAVEPOINT {name}", *self.nested(depth + 1)]
                statements.append(rng.choice((f"ROLLBACK TO {name}", f"RELEASE {name}")))
        return statements

    def transaction(self) -> list[str]:
        luck = self.rng.random()
        if luck < 0.35:
            return [self.one()]
        if luck < 0.6:
            body = self.some()
        elif luck < 0.92:
            body = self.nested()
        elif luck < 0.96:
            body = [self.truncation(), *self.some()]
        else:
            body = [*self.some(), self.truncation()]
        return ["BEGIN", *body, "ROLLBACK" if self.rng.random() < 0.12 else "COMMIT"]


class Worker(threading.Thread):
    """Runs transactions until it is told to end; where the server is gone, it waits."""

    def __init__(self, cluster: Cluster, seed: str, pause: float) -> None:
        super().__init__(daemon=True)
        self.cluster, self.rng, self.pause = cluster, random.Random(seed), pause
        self.ended = threading.Event()
        self.committed = 0
        self.session: Session | None = None
        self.truncates = True

    def run(self) -> None:
        while not self.ended.is_set():
            try:
                self.session = self.session or self.cluster.connect()
                self.once(self.session)
            except psycopg.Error as error:
                self.recover(error)
            self.ended.wait(self.rng.expovariate(1) * self.pause)
        if self.session:
            self.session.close()

    def once(self, session: Session) -> None:
        statements = Mix(self.rng, self.truncates).transaction()
        session.run(*statements)
        self.committed += statements[-1] != "ROLLBACK"

    def recover(self, error: psycopg.Error) -> None:
        """Rolls back, or drops a connection that is lost."""
        try:
            if self.session is None:
                raise error
            self.session.run("ROLLBACK")
            # deadlocks, taken keys and tables that an ALTER holds are part of it
            if not (error.sqlstate or "").startswith(
                ("40", "23", "55", "57", "42P01", "42703", "42804", "0A")
            ):
                print(f"live: {error.sqlstate} {error}", flush=True)
        except psycopg.Error:
            if self.session:
                self.session.close()
            self.session = None
            time.sleep(0.2)


class Altering(Worker):
    """Alters a table's columns and replica identity between the changes of others."""

    def __init__(self, cluster: Cluster, seed: str, pause: float) -> None:
        super().__init__(cluster, seed, pause)
        self.number = 0

    def once(self, session: Session) -> None:
        rng = self.rng
        self.number += 1
        columns = session.column(
            "SELECT attname FROM pg_attribute WHERE attrelid = 'altered'::regclass AND attnum > 3 AND NOT attisdropped"
        )
        alterations = [f"ADD COLUMN c{self.number}_{rng.randint(0, 9999)} int"]
        if columns:
            alterations += [
                f"DROP COLUMN {rng.choice(columns)}",
                f"ALTER COLUMN {rng.choice(columns)} TYPE bigint",
            ]
        alterations += [
            f"REPLICA IDENTITY {rng.choice(('FULL', 'DEFAULT'))}",
            f"ALTER word TYPE varchar({80 + self.number})",
        ]
        session.run("SET lock_timeout = '2s'", f"ALTER TABLE altered {rng.choice(alterations)}")
        self.committed += 1


class Mixed:
    """Several workers, and one that alters a table."""

    def __init__(self, cluster: Cluster, seed: str, workers: int, pause: float) -> None:
        self.cluster, self.seed = cluster, seed
        self.workers: list[Worker] = [
            Worker(cluster, f"{seed} {it}", pause) for it in range(workers)
        ]
        self.workers.append(Altering(cluster, f"{seed} alter", 20 * pause))
        self.is_running = False

    def fill(self, rows: int) -> None:
        """Makes rows that are there before anything is followed."""
        mix = Mix(random.Random(f"before {self.seed}"))
        self.cluster.run(
            f"INSERT INTO kept SELECT it, E'tab\\t and \\\\ back', md5(it::text) FROM generate_series(1, {rows // 2}) it",
            f"INSERT INTO whole SELECT 'before', it % 100, repeat('x', it % 50) FROM generate_series(1, {rows // 4}) it",
            f"INSERT INTO keyed SELECT it, md5(it::text), NULL FROM generate_series(100000, {100000 + rows // 4}) it",
            f"INSERT INTO kept SELECT -it, NULL, {EXTERNAL.format(60000)} FROM generate_series(2, 4) it",
        )
        with self.cluster.connect() as session:
            for _ in range(300):
                mix.attempt(session)

    def truncate(self, truncates: bool) -> None:
        """Says whether tables are truncated from now on."""
        for it in self.workers:
            it.truncates = truncates

    def begin(self) -> None:
        self.is_running = True
        for it in self.workers:
            it.start()

    def end(self) -> int:
        if self.is_running:
            self.is_running = False
            for it in self.workers:
                it.ended.set()
            for it in self.workers:
                it.join(60)
            self.cluster.run(*final_statements())
        return sum(it.committed for it in self.workers)


def final_statements() -> tuple[str, ...]:
    """One more change of each table, so that the stream has its last shape."""
    return (
        "INSERT INTO keyed VALUES (-1, 'last', NULL) ON CONFLICT (id) DO UPDATE SET name = 'again'",
        "INSERT INTO wide VALUES (-1, 'last', NULL) ON CONFLICT (id, code) DO UPDATE SET n = 1",
        "INSERT INTO indexed VALUES (-1, 'last', NULL) ON CONFLICT (a) DO UPDATE SET b = 'again'",
        "INSERT INTO whole VALUES ('last', 0, NULL)",
        "INSERT INTO inserts VALUES (-1, 'last')",
        "INSERT INTO bare (id, word) VALUES (-1, 'last')",
        f"INSERT INTO {QUOTED} VALUES (-1, '{{last}}') ON CONFLICT (\"Das Ä\") DO UPDATE SET \"select\" = '{{again}}'",
        "INSERT INTO parted VALUES (-1, 'low'), (9999, 'high') ON CONFLICT (id) DO UPDATE SET word = 'again'",
        "INSERT INTO kept VALUES (-1, 'last', NULL)",
        "INSERT INTO altered (id, word) VALUES (-1, 'last') ON CONFLICT (id) DO UPDATE SET word = 'again'",
    )
