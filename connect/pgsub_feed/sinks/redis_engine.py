"""Redis: rows and LSN in one MULTI, and no MULTI of a sink whose place another one has taken. Of a
long commit there are several, of which the last one has the LSN.

| Key | Has |
|---|---|
| `pgsub:lsn` | the LSN at which the last commit ends whose changes are there |
| `pgsub:sink` | a text of the sink that writes: the one that was started last |
| `pgsub:feed` | what is kept, and of what it is a feed |
| `pgsub:tables` | the definitions that were told last, and the names of tables |
| `pgsub:loading` | while the rows of a base are written: the names of its tables |
| `pgsub:part` | while a long commit is written: how much of it is there |
| `pgsub:removed` | while rows of large tables are removed: the names of these |
| `pgsub:message` | with `--as streams`: the stream of logical messages |

The first two are watched from one MULTI to the next. So where another sink has begun, or has
written, a MULTI has no effect at all.
"""

import contextlib
import json
import os
import secrets
import socket
import time
from collections.abc import Sequence
from typing import Any, Optional

from ..errors import Damaged, EngineError, Passing, Stopped, Unfit
from ..interruption import Check, at_most, never
from ..json_texts import list_of, parsed, text_of
from ..known_tables import KnownTables
from ..reader.commits import Commit, Message, Part, TableLine
from ..reader.following import Read
from ..texts import lsn_text, parse_lsn, shortened
from .engine import Engine, Wanted, of_another
from .first_rows import Base, numbered
from .redis_calls import Calls, Command, Said, asked, raised, understood
from .redis_disk import Disk, fields
from .redis_form import Form, is_long
from .redis_steps import Mark, Steps, read_mark
from .relations import Kept, Relations

LSN, SINK, FEED, TABLES, LOADING = (f"pgsub:{it}" for it in "lsn sink feed tables loading".split())
PART, REMOVED = "pgsub:part", "pgsub:removed"
WATCH, ASK = ("WATCH", LSN, SINK), ("MGET", LSN, SINK)
# How often one MULTI is tried where somebody reads or trims a stream meanwhile.
TRIES = 50
# How often it is looked whether this is still the sink that writes, in seconds.
OFTEN = 5.0


class Writer:
    """Who writes: a sink, over all its connections. One that has begun later ends it."""

    def __init__(self) -> None:
        self.began, self.has_begun = time.time(), False
        where = f"{socket.gethostname()} {os.getpid()} {secrets.token_hex(8)}"
        self.text = f"{where} {self.began:.3f}".encode()

    def begin(self) -> None:
        self.has_begun = True

    def is_before(self, other: bytes | None) -> bool:
        """Whether this one has written already, and another one, by its text, has begun since. (A
        Redis that goes back to an earlier copy of its own may name one that has ended.)"""
        with contextlib.suppress(ValueError, IndexError):
            return self.has_begun and float((other or b"").split()[3]) > self.began
        return False


class Redis(Engine):
    """An engine."""

    relations: Relations

    def __init__(
        self,
        calls: Calls,
        form: Form,
        check: Check,
        writer: Writer,
        known: KnownTables | None = None,
    ) -> None:
        self.peer = self.calls = calls
        self.form, self.check, self.writer, self.known = form, check, writer, known
        # the LSN that all is at as a text, None before there is one; the end of the last commit
        self.lsn: bytes | None = None
        self.end = 0
        # how much is there of the commit that comes next
        self.mark: Mark | None = None
        self.looked = time.monotonic()
        self.disk = Disk(calls)

    # ---- what is there

    def open(self, wanted: Wanted) -> bool:
        is_keyed_only = self.form.is_keyed_only
        self.relations = Relations(wanted.chosen, is_keyed_only, self.form, self.known, self.check)
        self.about = {**wanted.about(), "as": self.form.name}
        self.check_alone()
        lsn, about = self.two(("MGET", LSN, FEED))
        if lsn is None:
            # (another one may begin just now, and goes on as long as there is nothing here)
            return False
        # (before this one takes over, since another one that is fine would end)
        self.check_about(about)
        with understood(self.calls.where):
            at = parse_lsn(lsn.decode())
        wanted.check_after(at)
        self.take_over()
        about, tables = self.two(("MGET", FEED, TABLES))
        if self.lsn is None:
            raise Passing(f"{self.calls.where}: {LSN} was removed just now")
        self.check_about(about)
        if tables is None:
            text = f"{self.calls.where}: something else has removed {TABLES}: remove {LSN} and the rows to begin anew"
            raise Unfit(text)
        part, removed = self.two(("MGET", PART, REMOVED))
        with understood(self.calls.where):
            self.relations.load(tables.decode())
            at = parse_lsn(self.lsn.decode())
            self.mark = read_mark(part) if part is not None else None
        self.reach(at)
        self.remove(self.names_of(removed))
        return True

    def check_alone(self) -> None:
        """Rejects a Redis Cluster, whose keys lie in slots that no MULTI spans."""
        info = self.calls.run([("INFO", "server")])[0]
        with understood(self.calls.where):
            is_cluster = not isinstance(info, Said) and fields(info).get("redis_mode") == "cluster"
        if is_cluster:
            raise EngineError(
                f"{self.calls.where}: it is of a Redis Cluster, in which a MULTI can't have the rows and the LSN: take a Redis by itself, or one"
                " with replicas"
            )

    def take_over(self) -> None:
        """From now on no other sink's MULTI has an effect."""
        if self.writer.is_before(owner := self.two(ASK)[1]):
            self.check_owner(owner)
        self.writer.begin()
        asked(self.calls, [("SET", SINK, self.writer.text)])
        self.lsn = self.both(asked(self.calls, [WATCH, ASK])[1])[0]

    def check_about(self, about: bytes | None) -> None:
        """Rejects what is of another feed, or of other tables."""
        with understood(self.calls.where):
            is_same = about is not None and parsed(about) == self.about
        if not is_same:
            was, now = (about or b"nothing").decode(errors="replace"), json.dumps(self.about)
            raise of_another(self.calls.where, was, now, "database")

    def reach(self, at: int) -> None:
        self.at = self.end = at
        self.disk.note(at)

    # ---- calls

    def two(self, command: Command) -> tuple[Any, Any]:
        """The two values that a command asks for, each bytes or None."""
        return self.both(asked(self.calls, [command])[0])

    def both(self, found: Any) -> tuple[Any, Any]:
        with understood(self.calls.where):
            first, second = found
            if not all(it is None or isinstance(it, bytes) for it in found):
                raise TypeError("no bytes")
        return first, second

    def transact(self, commands: Sequence[Command], after: bytes | None) -> None:
        """Runs commands and moves the LSN in one MULTI, as long as this sink is the writer."""
        for _ in range(TRIES):
            if watched := self.form.watched():
                asked(self.calls, [("WATCH", *watched)])
                self.form.prepare()
            *queued, done, _, found = self.calls.run([("MULTI",), *commands, ("EXEC",), WATCH, ASK])
            for it in (*queued, done, found):
                if isinstance(it, Said):
                    raise raised(it, self.calls.where)
            lsn, owner = self.both(found)
            self.check_owner(owner)
            if done is not None:
                return self.check_done(done, lsn, after)
            self.check_lsn(lsn, self.lsn)
        raise Passing(f"{self.calls.where}: its streams are altered again and again meanwhile")

    def check_owner(self, found: bytes | None) -> None:
        if found is None:
            text = f"{self.calls.where}: something else has removed keys of the sink, {SINK} among them"
            raise Unfit(text)
        if found != self.writer.text:
            told = shortened(found.decode(errors="replace"))
            text = f"{self.calls.where}: another sink has begun to write there, {told}, so this one ends"
            raise Unfit(text)

    def check_lsn(self, found: bytes | None, expected: bytes | None) -> None:
        if found != expected:
            told, should = (
                shortened((it or b"none").decode(errors="replace")) for it in (found, expected)
            )
            text = f"{self.calls.where}: {LSN} is {told} in place of {should}, so something else has written it: this sink ends"
            raise Unfit(text)

    def check_done(self, done: list[Any], lsn: bytes | None, after: bytes | None) -> None:
        with understood(self.calls.where):
            wrong = [it for it in done if isinstance(it, Said) and not self.form.accepts(it)]
        if wrong:
            # (the others had their effect, so nothing may go on from there)
            asked(self.calls, [("DEL", LSN)])
            text = f"{self.calls.where}: keys of the sink were altered by something else, begin anew: {wrong[0]}"
            raise EngineError(text)
        self.check_lsn(lsn, after)
        self.lsn = after

    # ---- beginning

    def begin(self, base: Base) -> None:
        form = self.form
        # (before this one takes over, since another one may have begun, and be fine)
        self.check_lsn(self.two(ASK)[0], None)
        self.take_over()
        self.check_lsn(self.lsn, None)
        loading, removed = map(self.names_of, self.two(("MGET", LOADING, REMOVED)))
        self.remove([*loading, *removed])
        self.transact([("DEL", LOADING, REMOVED)], self.lsn)
        form.check_new()
        tables = [it for it in map(self.relations.begin, base.tables()) if it]
        form.note_begun()
        if tables:
            names = json.dumps([it.name for it in tables])
            self.transact([("SET", LOADING, names)], self.lsn)
            for kept in tables:
                self.load(base, kept)
        self.end = base.lsn
        self.relations.touch()
        self.write(None, [("SET", FEED, json.dumps(self.about)), ("DEL", LOADING)])

    def load(self, base: Base, kept: Kept) -> None:
        """Writes a table's rows, in parts."""
        commit = Commit(base.lsn, base.lsn, 0, 0)
        for it in numbered(base, [kept.relation]):
            self.form.change(kept, it, commit)
            if self.form.is_full():
                self.check()
                self.transact(self.commands(), self.lsn)
                self.clear()
                if kept.oid in self.relations.left:
                    return

    # ---- commits

    def take(self, commit: Commit, read: Read) -> None:
        form, by_parts = self.form, is_long(commit.changes, commit.bytes)
        if not form.has_room(commit):
            self.settle()
        steps = Steps(commit, read, self.mark, form.note, self.check, self.calls.where)
        described = dict[int, Optional[Kept]]()
        try:
            for part in steps.parts():
                self.put(part, commit, described)
                if form.doomed() or by_parts and form.is_full():
                    steps.prove()
                    self.write(steps.reached())
        except Damaged as damaged:
            if not steps.readings:
                raise
            told = f"the feed was altered while a commit was written: {damaged}"
            raise Passing(f"{self.calls.where}: {told}") from None
        self.end = commit.end
        if form.is_full() or self.mark:
            self.settle()

    def put(self, part: Part, commit: Commit, described: dict[int, Kept | None]) -> None:
        """Has a part of a commit wait."""
        if isinstance(part, Message):
            return self.form.message(part, commit)
        oid = part.relation.oid
        if isinstance(part, TableLine):
            described[oid] = self.relations.describe(part.relation, commit.end)
            return
        if not (kept := described[oid]):
            kept = described[oid] = self.relations.take_up(part, commit.end)
        elif self.relations.kept.get(oid) is not kept:
            # (another table has had its name in between)
            kept = described[oid] = self.relations.describe(part.relation, commit.end)
        if kept:
            self.form.change(kept, part, commit)

    def settle(self) -> None:
        if self.end != self.at:
            self.write(None)

    def write(self, mark: Mark | None, more: Sequence[Command] = ()) -> None:
        """Writes what waits, with the LSN of the last whole commit, and how much there is of the one
        behind it."""
        text = lsn_text(self.end)
        part = ("SET", PART, mark.text()) if mark else ("DEL", PART)
        commands = [*self.commands(), *more, part, ("SET", LSN, text)]
        if names := self.form.doomed():
            commands.append(("SET", REMOVED, json.dumps(names)))
        tables = self.relations.text() if self.relations.is_changed else None
        if tables is not None:
            commands.append(("SET", TABLES, tables))
        self.transact(commands, text.encode())
        self.mark = mark
        if tables is not None:
            self.relations.note_saved(tables)
        self.reach(self.end)
        self.clear()

    def clear(self) -> None:
        """Forgets what waited, and is written, and removes the tables that go with it."""
        names = self.form.doomed()
        self.form.clear()
        self.remove(names)

    def remove(self, names: list[str]) -> None:
        """Removes what tables have, in several MULTIs, and then what says so."""
        for some in self.form.removals(names):
            self.transact(some, self.lsn)
        if names:
            self.transact([("DEL", REMOVED)], self.lsn)

    def names_of(self, said: bytes | None) -> list[str]:
        """The names that are kept of tables; none where nothing is."""
        with understood(self.calls.where):
            return [text_of(it) for it in list_of(parsed(said))] if said is not None else []

    def commands(self) -> list[Command]:
        """What writes all that waits, but for tables whose rows don't have a key each."""
        for oid in self.form.unkeyed():
            # (a signal may have come between two of them)
            if oid in self.relations.kept:
                self.relations.give_up(oid)
        return self.form.commands()

    def forget(self) -> None:
        self.form.clear()
        self.relations.go_back()
        self.end = self.at

    def look(self) -> None:
        now = time.monotonic()
        if now - self.looked > OFTEN:
            self.looked = now
            lsn, owner = self.two(ASK)
            self.check_owner(owner)
            self.check_lsn(lsn, self.lsn)

    def finish(self, seconds: float) -> bool:
        if self.calls.is_lost:
            return False
        self.calls.end_by(never)
        with contextlib.suppress(Stopped), at_most(seconds):
            self.settle()
            return True
        return False

    def check_disk(self) -> None:
        self.disk.check()

    def safe(self) -> int | None:
        return self.disk.safe()
