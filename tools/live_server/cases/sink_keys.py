"""Primary keys of tables whose replica identity is another, in hashes of Redis and in lines of a bulk
request, compared with the server's rows."""

from __future__ import annotations

import json
import random
import re
import subprocess
from typing import Any, Dict, List, Optional, Tuple

from ..child import Child
from ..engines import RedisServer
from ..errors import Failed
from ..follower import Supervisor, remembered_of, wait_until
from ..place import OK, UNFIT, Place
from ..sinks import Hashes, compare, rows_of_server
from .case import Case
from .common import feed_of
from .keys import CHANGES, FULL, TABLES
from .sinking import has_reached, last_end, sink_words, started

STOCK = (
    "CREATE TABLE stock (id int PRIMARY KEY, note text)",
    FULL.format("stock"),
    "CREATE TABLE coded (id int PRIMARY KEY, code text NOT NULL UNIQUE, v int)",
    "ALTER TABLE coded REPLICA IDENTITY USING INDEX coded_code_key",
    "CREATE PUBLICATION pgsub FOR ALL TABLES",
)


def hashes_of_server(place: Place, *without: str) -> Hashes:
    found, _ = rows_of_server(place.cluster, "pgsub")
    return {key: it for key, it in found.items() if key.partition(":")[0] not in without}


class Sink:
    """One that writes hashes to a Redis, beside a follower."""

    def __init__(self, place: Place, child: Child) -> None:
        self.place, self.child = place, child
        self.redis, self.log = RedisServer(place.folder / "redis"), place.folder / "sink.log"
        started(place, self.redis)
        words = sink_words(place, self.redis, feed_of(place), "--store", str(place.store))
        self.sink = Supervisor([*words, "--reader", "hashes"], self.log)
        place.closing.callback(self.sink.kill)
        self.sink.begin()

    def settle(self) -> None:
        """Waits until it has all that is committed now."""
        self.place.catch_up(self.child)
        end = last_end(feed_of(self.place))
        wait_until(lambda: has_reached(self.redis, end), "writing all", 60, self.sink.check)

    def check(self, *without: str) -> None:
        """Its hashes are the server's rows, but for tables that are left out."""
        self.settle()
        compare("hashes", self.redis.hashes(), hashes_of_server(self.place, *without))

    def tells(self, pattern: str) -> None:
        if not re.search(pattern, said := self.log.read_text()):
            raise Failed(f"it didn't tell {pattern!r}: {said}")

    def kill(self) -> None:
        wait_until(self.sink.kill_connector, "finding a sink that runs", 30, self.sink.check)


def start(place: Place) -> Child:
    child = place.start("--create", "--feed", str(feed_of(place)), "--feed-max-age", "1d")
    place.catch_up(child)
    return child


def change(rng: random.Random) -> str:
    """A statement that changes rows, or their keys."""
    key, other = rng.randint(1, 60), rng.randint(1, 60)
    return rng.choice(
        (
            *(f"INSERT INTO stock VALUES ({key}, '{other}') ON CONFLICT DO NOTHING",) * 4,
            f"INSERT INTO coded VALUES ({key}, 'c{other}', {key}) ON CONFLICT DO NOTHING",
            f"UPDATE stock SET id = {key} WHERE id = {other} AND NOT EXISTS (SELECT FROM stock WHERE id = {key})",
            f"BEGIN; UPDATE stock SET id = -1 WHERE id = {key}; UPDATE stock SET id = {key} WHERE id = {other};"
            f" UPDATE stock SET id = {other} WHERE id = -1; COMMIT",
            f"UPDATE stock SET note = NULLIF(note, '{other}') WHERE id < {key}",
            f"UPDATE coded SET id = id + 100, code = code || 'x' WHERE id BETWEEN {key} AND {key + 3}",
            f"DELETE FROM stock WHERE id BETWEEN {key} AND {key + 5}",
            f"DELETE FROM coded WHERE id > {key}",
            *(["TRUNCATE stock"] if key == 1 else []),
        )
    )


def hashes(place: Place) -> None:
    """Hashes are the server's rows by their primary keys: after the copy, changes, kills of the sink
    under load, TRUNCATE, `add`, and of a table that is made meanwhile."""
    place.run(*TABLES, "CREATE PUBLICATION pgsub FOR ALL TABLES WITH (publish_via_partition_root)")
    child = start(place)
    sink = Sink(place, child)
    sink.check()
    place.run(*CHANGES)
    sink.check()
    place.run(
        "CREATE TABLE fresh (v int, id int PRIMARY KEY)",
        FULL.format("fresh"),
        "INSERT INTO fresh VALUES (1, 1), (1, 2)",
        "UPDATE fresh SET id = 3 WHERE id = 1",
    )
    sink.check()
    rng = random.Random(place.options.seed)
    for _ in range(max(3, place.options.kills // 4)):
        for _ in range(60):
            place.run(change(rng))
        sink.kill()
    place.run("INSERT INTO stock VALUES (7777, 'x')")
    sink.check()
    place.subcommand("add", "--dsn", place.dsn(), "--store", str(place.store), "--table", "stock")
    place.run("TRUNCATE coded", "INSERT INTO coded VALUES (1, 'c', 1)")
    sink.check()
    if not {"stock:7777", "coded:1", "fresh:3", "pairs:13:a"} <= sink.redis.hashes().keys():
        raise Failed(f"there are {sorted(sink.redis.hashes())}")
    if wrong := [it for it in sink.redis.hashes() if it.startswith(("bag:", "later:"))]:
        raise Failed(f"tables without a key have {wrong}")
    sink.sink.finish()
    child.stop()


def is_known(place: Place, table: str, primary: List[str]) -> bool:
    """Whether the follower has seen this primary key."""
    tables = remembered_of(place.store)["catalog"]["tables"].values()
    found = [it["primary"] for it in tables if it["name"] == table]
    return found == [primary]


def alter(place: Place, child: Child, primary: List[str], *commands: str) -> None:
    """Alters the key of `stock`, and waits until the follower has seen that."""
    place.run(*commands)
    what = f"seeing the key {primary}"
    wait_until(lambda: is_known(place, "stock", primary), what, 60, child.check)


def other_keys(place: Place) -> None:
    """The server drops a key, makes another one, and one with equal values before: what Redis has is
    right at each time, a table without a key that holds is left out, and comes again by `add`."""
    place.run(*STOCK, "INSERT INTO stock SELECT it, 'n' || it FROM generate_series(1, 9) it")
    child = start(place)
    sink = Sink(place, child)
    sink.check()
    drop = "ALTER TABLE stock DROP CONSTRAINT stock_pkey, ALTER id DROP NOT NULL"
    alter(place, child, [], drop, "INSERT INTO stock VALUES (10, 'n10')")
    place.run("UPDATE stock SET id = id + 20")
    sink.settle()
    sink.tells("there is no primary key on the server any more: id stays the key")
    compare("ids", sorted(sink.redis.hashes()), sorted(f"stock:{it}" for it in range(21, 31)))
    by_note = "ALTER TABLE stock ADD PRIMARY KEY (note)", "UPDATE stock SET id = 7 WHERE id = 28"
    alter(place, child, ["note"], *by_note)
    place.run("UPDATE stock SET id = 7 WHERE id > 28", "DELETE FROM stock WHERE note = 'n1'")
    sink.check()
    alter(place, child, [], drop, "INSERT INTO stock VALUES (1, 'n3')")
    sink.settle()
    sink.tells(
        "rows have null in the key note, or equal values, .*add --store .* --table public.stock"
    )
    compare("hashes", sink.redis.hashes(), {})
    both = "DELETE FROM stock WHERE id = 1", "ALTER TABLE stock ADD PRIMARY KEY (note, id)"
    alter(place, child, ["note", "id"], *both, "UPDATE stock SET id = 5 WHERE note = 'n2'")
    place.run("UPDATE stock SET id = 6 WHERE note = 'n2'")
    sink.check("stock")
    sink.tells("the table was left out before, .*add --store .* --table public.stock")
    place.subcommand("add", "--dsn", place.dsn(), "--store", str(place.store), "--table", "stock")
    place.run("UPDATE stock SET id = 8 WHERE note = 'n5'")
    sink.check()
    if "stock:8:n5" not in sink.redis.hashes():
        raise Failed(f"there are {sorted(sink.redis.hashes())}")
    sink.sink.finish()
    child.stop()


# By index and id: the version of each document, and what it has; None where it was deleted.
Documents = Dict[Tuple[str, str], Tuple[int, Optional[Dict[str, Any]]]]


class Search:
    """An Elasticsearch, as far as lines of a bulk request need one."""

    def __init__(self, place: Place) -> None:
        self.place = place
        self.documents: Documents = {}

    def words(self, *more: str) -> list[str]:
        feed = str(self.place.options.connect.parent / "pgsub-feed")
        return [feed, "--format", "bulk", "--feed", str(feed_of(self.place)), *more]

    def write(self, *more: str, status: int = OK) -> str:
        """Takes the lines of commits, of all where none is named. Returns what else was said."""
        words = self.words(*more)
        done = subprocess.run(words, capture_output=True, text=True, check=False)
        if done.returncode != status:
            raise Failed(f"pgsub-feed ended with {done.returncode}: {done.stderr}")
        lines = map(json.loads, done.stdout.splitlines())
        for about in lines:
            ((action, it),) = about.items()
            row = next(lines) if action == "index" else None
            key = it["_index"], it["_id"]
            if it["version"] > self.documents.get(key, (0, None))[0]:
                self.documents[key] = it["version"], row
        return done.stderr

    def begin_anew(self, said: str) -> None:
        """Does what the last line of one says that was ended by a TRUNCATE."""
        found = re.search(
            r"documents of the index (\S+), and go on with --from (\S+) --truncated (\S+)", said
        )
        if not found:
            raise Failed(f"it says no way on: {said}")
        index, begin, commit = found.groups()
        self.documents = {it: row for it, row in self.documents.items() if it[0] != index}
        self.write("--from", begin, "--truncated", commit)

    def check(self) -> None:
        """The documents are the server's rows."""
        found = {
            f"{index}:{row_id}": {name: str(it) for name, it in row.items() if it is not None}
            for (index, row_id), (_, row) in self.documents.items()
            if row is not None
        }
        compare("documents", found, hashes_of_server(self.place))


def documents(place: Place) -> None:
    """Lines of a bulk request, also those that are sent again, lead to the server's rows by their
    primary keys. Of a table that gets another one they end, until its rows come anew."""
    place.run(*STOCK)
    child = start(place)
    search, rng = Search(place), random.Random(place.options.seed)
    for _ in range(200):
        command = change(rng)
        place.run(command if command != "TRUNCATE stock" else "DELETE FROM stock")
    place.run("UPDATE stock SET id = id + 1000", "UPDATE coded SET id = id + 1000 WHERE v < 40")
    place.catch_up(child)
    for _ in range(2):
        search.write()
        search.check()
    place.run("TRUNCATE stock", "INSERT INTO stock VALUES (3, 'after')")
    place.catch_up(child)
    search.begin_anew(search.write(status=UNFIT))
    search.check()
    print(f"   {len(search.documents)} documents", flush=True)
    last = f"{last_end(feed_of(place)) >> 32:X}/{last_end(feed_of(place)) & 0xFFFFFFFF:X}"
    following = place.started(search.words("--from", last, "--follow"))
    place.run("UPDATE stock SET note = 'x'")
    following.wait_for('"version_type"')
    alter(place, child, [], "ALTER TABLE stock DROP CONSTRAINT stock_pkey", "DELETE FROM stock")
    place.run("INSERT INTO stock VALUES (3, 'again'), (3, 'b')")
    following.wait_for(
        "it has the key none, and had id, so documents of the index stock may be wrong"
    )
    alter(
        place,
        child,
        ["note"],
        "ALTER TABLE stock ADD PRIMARY KEY (note)",
        "DELETE FROM stock WHERE note = 'b'",
    )
    place.subcommand("add", "--dsn", place.dsn(), "--store", str(place.store), "--table", "stock")
    said = place.has_ended(following, UNFIT, "truncates public.stock")
    search.begin_anew(said)
    search.check()
    child.stop()


def dropped_just_now(place: Place) -> None:
    """Of a commit after its table's key was dropped no line is written by that key, however soon it
    comes."""
    place.run(*STOCK)
    child = start(place)
    following = place.started(Search(place).words("--follow"))
    place.run("INSERT INTO stock VALUES (5000, 'x')")
    following.wait_for('"_id":"5000"')
    place.run(
        "ALTER TABLE stock DROP CONSTRAINT stock_pkey",
        "INSERT INTO stock VALUES (6000, 'a')",
        "INSERT INTO stock VALUES (6000, 'b')",
    )
    following.wait_for(
        "it has the key none, and had id, so documents of the index stock may be wrong"
    )
    following.stop()
    if '"_id":"6000"' in following.said():
        raise Failed(f"rows are documents without a key: {following.said()}")
    child.stop()


CASES = (
    Case("sinks-keys-of-another-identity", hashes),
    Case("sinks-keys-that-are-altered", other_keys),
    Case("sinks-documents-by-primary-key", documents),
    Case("sinks-key-dropped-just-now", dropped_just_now),
)
