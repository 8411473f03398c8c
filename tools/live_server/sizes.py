"""Transactions and changes of shape that are large, each in one step, and what it takes.

A table is filled by one transaction, updated and deleted by one each, and altered; another gets
subtransactions. After each step the copy has to hold the server's rows.
"""

from __future__ import annotations

import dataclasses
import random
import re
import time
from collections.abc import Callable, Iterable
from concurrent.futures import Future, ProcessPoolExecutor, ThreadPoolExecutor
from multiprocessing import get_context
from pathlib import Path

from .cases import adding
from .cases.common import rows_file, verify_words
from .cluster import Cluster
from .digests import Digest, Digests, compare, digests_of, digests_of_store
from .errors import Failed
from .feeds import columns_of, reading
from .follower import OF_RULES, Supervisor, is_adding, wait_until
from .options import Options
from .peaks import Group, Peaks
from .place import OK, PASSING, Place
from .rows import quoted

# What is done at full size.
ROWS, SUBTRANSACTIONS, WIDE = 10_000_000, 1_000_000, 1_000_000_000
OTHERS, WIDEST = 50, 100_000_000
# A row has this part of a limit of memory at most: connector, filter and tables take it so often.
OF_MEMORY = 32
SCHEMA = (
    "CREATE TABLE large (id bigint PRIMARY KEY, other bigint NOT NULL, part int, word text, note text)",
    "CREATE UNIQUE INDEX large_other ON large (other)",
    "CREATE TABLE nested (id int PRIMARY KEY, word text)",
    "CREATE TABLE beside (id int, at int, word text, PRIMARY KEY (id, at))",
    "CREATE TABLE wide (id int PRIMARY KEY, word text)",
    "CREATE TABLE mark (id int)",
    "ALTER TABLE wide ALTER word SET STORAGE EXTERNAL",
    # (a block with EXCEPTION is a subtransaction)
    "CREATE FUNCTION nest(count int) RETURNS void LANGUAGE plpgsql AS $$ BEGIN FOR it IN 1..count LOOP"
    " BEGIN INSERT INTO nested VALUES (it, md5(it::text)); IF it % 3 = 0 THEN RAISE EXCEPTION 'back'; END IF;"
    " EXCEPTION WHEN raise_exception THEN NULL; END; END LOOP; END $$",
)
# What is said of a limit, with what it takes to go on.
BUFFERED = re.compile(r"--max-buffered (\d+)")
FRAME = re.compile(r"--max-frame (\d+)")
TOO_LARGE = re.compile(r"has (?:at least )?(\d+) bytes, and \d+ may be buffered")
KILLED_TWICE = "twice in the transaction"
NOBODY = "nobody follows into"
# The file of open transactions beside a store, and how much of them stays in memory by default: so
# many bytes, or a part of the memory.
SPOOL, IN_MEMORY, PART = ".spool/transactions", 64 << 20, 8
# How often one step may reach a limit, or be started again because it was killed twice.
MOST_TRIES = 30
# For how many seconds at most locks are waited for to compare.
MOST_HELD = 600


@dataclasses.dataclass(frozen=True)
class Size:
    """How much there is, by how many full sizes are divided. `memory`: how many megabytes who
    follows may take, 0 for any."""

    of: int
    memory: int = 0

    @property
    def rows(self) -> int:
        return ROWS // self.of

    @property
    def subtransactions(self) -> int:
        return SUBTRANSACTIONS // self.of

    @property
    def wide(self) -> int:
        """The bytes of a row's text, which comes whole wherever it goes."""
        most = min(WIDE // self.of, WIDEST)
        return min(most, (self.memory << 20) // OF_MEMORY) if self.memory else most


@dataclasses.dataclass(frozen=True)
class Form:
    """How it is followed. `memory`: how many megabytes connector, filter and tables may take, 0 for
    any; `in_memory`: how many bytes of open transactions stay there, 0 for what is the default;
    `killed_in`: in which steps parts are killed, none for all."""

    proto: int = 2
    fed: bool = True
    kills: int = 0
    memory: int = 0
    in_memory: int = 0
    killed_in: tuple[str, ...] = ()

    def kills_in(self, name: str) -> int:
        """How often something is killed in a step."""
        return self.kills if not self.killed_in or name in self.killed_in else 0


TABLES = ("large", "nested", "beside", "wide", "mark")


def digests_of_tables(rows: Path, names: dict[str, list[str]]) -> Digests:
    """Those of the tables of SQLite, of which these columns are read."""
    found = {}
    with reading(rows) as base:
        for table, columns in names.items():
            found[table] = Digest()
            cells = ", ".join(map(quoted, columns))
            for row in base.execute(f"SELECT {cells} FROM {quoted(table)}"):
                found[table].add(tuple(None if it is None else str(it) for it in row))
    return found


def server_of(options: Options, form: Form) -> Cluster:
    """A server that runs, with an empty database, whose log has room for all."""
    # (where nothing is streamed, PostgreSQL 15 looks through all subtransactions each time that
    # their changes are more than that)
    kept = "64kB" if form.proto > 1 else "64MB"
    settings = {
        "max_wal_size": "8GB",
        "wal_sender_timeout": "60s",
        "logical_decoding_work_mem": kept,
    }
    cluster = Cluster(options.installed, options.folder, settings)
    cluster.start()
    cluster.run("CREATE DATABASE shop", database="postgres")
    return cluster


class Tables:
    """Tables at a server, to which much is done at a time."""

    def __init__(self, place: Place, size: Size) -> None:
        self.place, self.size = place, size
        place.run(*SCHEMA, "CREATE PUBLICATION pgsub FOR TABLE large, nested, beside, wide, mark")

    def alter(self, *commands: str) -> None:
        """Alters the table, and makes one change of it, so that its definition comes."""
        self.sql(*commands)
        self.sql("UPDATE large SET part = part + 1 WHERE id = 1")

    def add(self) -> None:
        """Has the table's rows copied anew."""
        raise NotImplementedError

    def end(self) -> str:
        """The LSN behind all that is committed by now. (A commit with changes after it is confirmed
        at once.)"""
        end = self.place.cluster.log_end()
        self.place.run("INSERT INTO mark VALUES (1)")
        return end

    def seconds(self) -> float:
        """How long a step may take."""
        return 120 + self.size.rows / 2000

    def sql(self, *commands: str) -> None:
        self.place.run(*commands)

    def subtransactions(self) -> None:
        """One transaction with many, of which a third is rolled back, beside others."""
        connect, sessions = self.place.cluster.connect, []
        try:
            for at in range(OTHERS):
                sessions.append(connect(self.place.database))
                sessions[-1].run("BEGIN", rows_beside(at, 0))
            with ThreadPoolExecutor(1) as pool:
                nesting = pool.submit(
                    self.sql, "BEGIN", f"SELECT nest({self.size.subtransactions})", "COMMIT"
                )
                for at, session in enumerate(sessions):
                    session.run(rows_beside(at, 500))
                for session in sessions[::2]:
                    session.run("COMMIT")
                nesting.result()
            for at, session in enumerate(sessions[1::2]):
                session.run("ROLLBACK" if at % 3 == 0 else "COMMIT")
        finally:
            for session in sessions:
                session.close()


class Large(Tables):
    """A follower of tables to which much is done at a time. It is started again where it ends at a
    limit, with what it says that it needs."""

    def __init__(self, place: Place, size: Size, form: Form) -> None:
        super().__init__(place, size)
        self.form = form
        self.rng = random.Random(f"large {place.options.seed} {size.of} {form}")
        self.limits: list[str] = []
        self.more = {"--spool-memory": form.in_memory} if form.in_memory else {}
        self.group: Group | None = None
        if form.memory and Group.can_be_made():
            self.group = Group(f"pgsub-{place.folder.name}", form.memory)
            place.closing.callback(self.group.remove)
        elif form.memory and not form.in_memory:
            # (in a group the connector takes that part of its memory by itself)
            self.more = {"--spool-memory": min(IN_MEMORY, (form.memory << 20) // PART)}
        self.starts = self.killed = self.spooled = 0
        # whether the copy had the server's rows after the last step
        self.is_equal = True
        self.supervisor = self.started("--create")
        place.closing.callback(lambda: self.supervisor.kill())
        self.peaks = Peaks(lambda: self.supervisor.child.pid, place.beside(SPOOL))
        self.peaks.start()
        place.closing.callback(self.peaks.end)
        self.wait_for(self.end())

    # the follower

    def words(self, *more: str) -> list[str]:
        fed = ["--tables", str(rows_file(self.place))] if self.form.fed else []
        limits = [word for name, most in self.more.items() for word in (name, str(most))]
        words = self.place.words("--proto", str(self.form.proto), *fed, *limits, *more)
        return self.group.words(words) if self.group else words

    def started(self, *more: str) -> Supervisor:
        self.starts += 1
        log = self.place.folder / f"said-{self.starts}"
        supervisor = Supervisor(self.words(*more), log)
        # (a million changes at once aren't watched)
        supervisor.of_rules = OF_RULES[:2]
        supervisor.ends_within = self.seconds()
        supervisor.begin()
        return supervisor

    def restart(self) -> None:
        """Ends the connector in the orderly way, and starts it again."""
        self.supervisor.finish()
        self.supervisor = self.started()

    def go_on(self) -> None:
        """Starts a connector again that has ended: as it was where it was killed twice in one
        transaction, else with what it says that it needs."""
        said = self.supervisor.last_said()
        if KILLED_TWICE not in said:
            self.raise_limits(said)
        if self.starts > MOST_TRIES:
            raise Failed(f"it was started {self.starts} times: {said}")
        self.supervisor = self.started()

    def raise_limits(self, said: str) -> None:
        asked = {"--max-buffered": BUFFERED.findall(said), "--max-frame": FRAME.findall(said)}
        if TOO_LARGE.search(said):
            asked["--max-buffered"] = [str(2 * int(TOO_LARGE.findall(said)[-1]))]
        told = {name: int(found[-1]) for name, found in asked.items() if found}
        if not told:
            raise Failed(f"it ended, and doesn't say what it needs: {said}")
        self.limits.append(f"{said.strip().splitlines()[-1]} -> {told}")
        self.more.update(told)

    def wait_for(self, lsn: str) -> None:
        """Waits until all up to there is stored, and in the tables."""

        def is_there() -> bool:
            if self.supervisor.failure:
                self.go_on()
            return self.place.has_confirmed(lsn) and not is_adding(self.place.store)

        wait_until(is_there, f"confirming {lsn}", self.seconds())
        if self.form.fed:
            wait_until(rows_file(self.place).exists, "making the tables", self.seconds())
            waits = [str(self.place.options.connect), "wait", lsn]
            waits += ["--tables", str(rows_file(self.place)), "--within", f"{self.seconds():.0f}"]
            self.place.has_ended(self.place.started(waits), OK, "", self.seconds() + 10)

    # the steps

    def run(self, name: str) -> str:
        """Runs a step to its end. Returns what it took."""
        self.wait_for(self.end())
        self.limits.clear()
        self.peaks.begin()
        began, ended = time.monotonic(), []
        with ThreadPoolExecutor(1) as pool:
            doing = pool.submit(STEPS[name], self)
            doing.add_done_callback(lambda _: ended.append(time.monotonic()))
            self.kill_often(doing, self.form.kills_in(name))
            doing.result()
        made = ended[0] - began
        self.wait_for(self.end())
        took = time.monotonic() - began
        self.spooled = max(self.spooled, self.peaks.spooled)
        return f"{took:.1f} s, {made:.1f} of them the server's; {self.peaks.text()}"

    def step(self, name: str) -> str:
        """Runs a step, and compares after it. Fails where a limit was reached, too. Returns what
        it took."""
        self.is_equal = False
        took = self.run(name)
        self.verify()
        took = f"{took}; {self.compare()}"
        self.supervisor = self.started()
        self.is_equal = True
        if exceeded := self.exceeded():
            raise Failed(f"{exceeded}; {took}")
        return took

    def exceeded(self) -> str:
        """What is above its limit in the last step, "" where nothing is."""
        if self.limits:
            return f"it ended at a limit, and went on with more: {'; '.join(self.limits)}"
        if self.group and (ended := self.group.ended()):
            return f"the limit of {self.form.memory} MB has ended {ended} processes"
        if self.form.memory and not self.group:
            if (taken := self.peaks.together()) > self.form.memory:
                return f"connector, filter and tables took {taken} of {self.form.memory} MB"
        return ""

    def about(self) -> str:
        """How it is followed."""
        limit = "a control group's" if self.group else "compared with VmHWM"
        limit = f"{self.form.memory} MB, {limit}" if self.form.memory else "none"
        fed = "with a feed and tables" if self.form.fed else "without a feed"
        return f"{self.size.rows} rows, version {self.form.proto}, {fed}; limit of memory: {limit}"

    def kill_often(self, doing: Future[None], kills: int) -> None:
        """Kills filter and connector at random moments, some of them once the server has done its
        part. After each of them all comes again: so they are at all scales, the next one a moment
        later or after most of what there is to do."""
        reach = 2 + self.size.rows / 16_500
        for at in range(kills):
            time.sleep(0.5 * reach ** self.rng.random())
            if doing.done() and doing.exception():
                return
            self.kill("connector" if (at + self.starts) % 2 else "filter")

    def kill(self, victim: str) -> None:
        def is_killed() -> bool:
            if self.supervisor.failure:
                self.go_on()
            it = self.supervisor
            return it.kill_connector() if victim == "connector" else it.kill_filter()

        wait_until(is_killed, f"finding a {victim} that runs", self.seconds())
        self.killed += 1

    def add(self) -> None:
        """Again where a kill comes between."""
        for _ in range(MOST_TRIES):
            child = self.place.started(adding.words(self.place, "large"))
            status = child.end(self.seconds())
            if status == OK:
                return
            if TOO_LARGE.search(child.said()):
                self.raise_limits(child.said())
                self.restart()
            elif not self.form.kills:
                raise Failed(f"add: status {status}: {child.said()}")
            time.sleep(0.2)
        raise Failed(f"add: {child.said()}")

    # what is compared

    def verify(self) -> None:
        """Has the connector compare while it follows."""
        words = verify_words(self.place, "--hold", f"{min(self.seconds(), MOST_HELD):.0f}")

        def is_compared() -> bool:
            child = self.place.started(words)
            status = child.end(self.seconds())
            if status == PASSING and NOBODY in child.said():
                # (it was killed a moment ago, after it had confirmed all)
                return False
            return bool(self.place.has_ended(child, OK, ""))

        wait_until(is_compared, "comparing", self.seconds())

    def compare(self) -> str:
        """Ends the connector, and compares the digests of all rows, which are found side by side.
        Returns how many there are."""
        self.supervisor.finish()
        place = self.place
        with ProcessPoolExecutor(2, get_context("spawn")) as pool:
            copy = pool.submit(digests_of_store, place.options.program, place.store)
            if self.form.fed:
                tables = pool.submit(digests_of_tables, rows_file(place), self.columns())
            server = digests_of(place.cluster, TABLES)
            count = compare(server, copy.result(), "the store")
            if self.form.fed:
                compare(server, tables.result(), "the tables")
        if (spool := self.place.beside(SPOOL).parent).exists():
            raise Failed(f"{spool} is left, with {sorted(spool.iterdir())}")
        return f"{count} rows are equal"

    def columns(self) -> dict[str, list[str]]:
        """The names of each table's columns."""
        with self.place.cluster.connect(self.place.database) as session:
            return {it: [name for name, _ in columns_of(session, it)] for it in TABLES}


def rows_beside(at: int, first: int) -> str:
    """Inserts 500 rows of another transaction."""
    return f"INSERT INTO beside SELECT {at}, it, repeat('b', 150) FROM generate_series({first + 1}, {first + 500}) it"


def sql(command: str) -> Callable[[Tables], None]:
    return lambda tables: tables.sql(command.format(size=tables.size))


def altered(command: str) -> Callable[[Tables], None]:
    return lambda tables: tables.alter(f"ALTER TABLE large {command}")


# In this order: each but the first needs the rows of those before.
STEPS: dict[str, Callable[[Tables], None]] = {
    "inserts": sql(
        "INSERT INTO large SELECT it, -it, it % 1000, repeat(md5(it::text), 4), 'note ' || it"
        " FROM generate_series(1, {size.rows}) it"
    ),
    "identity-full": altered("REPLICA IDENTITY FULL"),
    "update": sql("UPDATE large SET part = part + 1, note = note || '.'"),
    "identity-index": altered("REPLICA IDENTITY USING INDEX large_other"),
    "add-column": altered("ADD COLUMN added int"),
    "drop-column": altered("DROP COLUMN note"),
    "subtransactions": Tables.subtransactions,
    "wide": sql("INSERT INTO wide SELECT 1, repeat(md5('1'), {size.wide} / 32)"),
    "add": lambda tables: tables.add(),
    "delete": sql("DELETE FROM large"),
}


def run_steps(large: Large, names: Iterable[str]) -> str:
    """Runs steps one after the other, none of which may reach a limit, and compares at the end.
    Returns what there is to say."""
    for name in names:
        took = large.run(name)
        if exceeded := large.exceeded():
            raise Failed(f"{name}: {exceeded}; {took}")
    if large.form.in_memory and not large.spooled:
        raise Failed("nothing of it went on in a file")
    large.verify()
    return f"{large.compare()}, after {large.killed} kills"
