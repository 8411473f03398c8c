"""Histories of which the first transactions come to `follow --load` as COPY's text, and the others
in sessions: rows, statuses and feed have to be those that all of it leads to in sessions."""

import random

from feed_folder import Asked, Folder

from . import history
from . import tables as model
from .cases import (
    ENOUGH,
    Difference,
    cache_words,
    check_store,
    compare,
    compare_followed,
    spool_words,
    stop_line,
    version_words,
)
from .fed import Feeding
from .followed import Followed
from .loads import MOST_PARTS, Load, point_of
from .stream import Delivery
from .wire import text

# exit statuses: the store isn't fit for it; the input ends too early
NOT_FIT, ENDS = 3, 15


class Values(history.Values):
    """Values that COPY's text format has: texts."""

    def cell(self):
        return as_text(super().cell())

    def key_cell(self):
        return as_text(super().key_cell())


def as_text(cell):
    return text(cell[5:].hex().encode()) if cell[:1] == b"b" else cell


class Maker(history.Maker):
    def make_values(self):
        return Values(self.rng)


class Loaded:
    """Runs over one store, of which the first one loads it."""

    def __init__(self, rng, program, version, load, point):
        self.rng, self.program, self.version = rng, program, version
        self.load, self.point = load, point
        self.store, self.feed = program.path_of("copy.db"), program.path_of("copy.feed")
        self.read, self.number = Feeding(version), 0
        # a feed, where one is kept
        self.asked = Asked("1", "shop", "pgsub") if rng.random() < 0.4 else None
        self.read.writer = Folder() if self.asked else None

    def words(self, *more):
        self.number += 1
        words = ["--store", self.store, *more, *cache_words(self.number)]
        if self.asked:
            origin = zip(("system", "database", "slot"), ("1", "shop", "pgsub"))
            words += ["--feed", self.feed, *(f"--feed-{name}={it}" for name, it in origin)]
        return words + version_words(self.rng, self.version)

    def stop(self, content, fault, status, *more):
        """A run that tells this fault and follows nothing."""
        file = self.program.file(f"input.{self.number}", content)
        words = ["follow", *self.words(*more)]
        compare("a load", self.program, words, status, b"", stop_line(fault), file)
        check_store(self.program, self.store, self.read)

    def hold(self, count):
        """What is stored where so many tables have ended, and no more."""
        self.read.tables, self.read.position = self.load.stored(count)

    def cut(self):
        """A run whose input ends within the load, and what starts then."""
        parts = [*self.load.parts(), point_of(self.point)]
        whole = b"".join(parts)
        at = self.rng.randrange(len(whole))
        ended = 0
        while sum(map(len, parts[: ended + 1])) <= at:
            ended += 1
        self.hold(ended)
        self.stop(whole[:at], "load 9 CutInput", ENDS, "--load")
        if self.read.position:
            self.stop(whole, "load 7 NotNew", NOT_FIT, "--load")
        return not self.read.position

    def take(self, content):
        """The load, and sessions behind it."""
        begun = b"".join(self.load.parts()) + point_of(self.point)
        self.hold(len(self.load.tables))
        if self.point <= MOST_PARTS or self.point <= self.read.position:
            self.stop(begun + content, "load 6 BadPoint", 1, "--load")
            return
        self.read.position = self.point
        self.follow(begun, content, "--load")

    def follow(self, begun, content, *more):
        self.read = read = self.read.restarted()
        if self.asked:
            read.writer.open(read.position, self.asked)
        followed = Followed(read).follow(content)
        file = self.program.file(f"input.{self.number}", begun + content)
        more = [*more, *spool_words(self.number + len(content), self.program)]
        compare_followed("after a load", self.program, self.words(*more), followed, file)
        check_store(self.program, self.store, read)
        told = self.program.feed_findings(self.feed, read.writer.files()) if self.asked else []
        if told:
            raise Difference(f"the feed {self.feed}\n   " + "\n   ".join(told))

    def go_on(self, content):
        """The same store once more."""
        if self.read.position:
            self.stop(content, "load 7 NotNew", NOT_FIT, "--load")
        if self.read.position > MOST_PARTS:
            self.follow(b"", content)


def loaded_tables(transactions):
    """The tables after these, and the end of the last."""
    tables = {}
    for transaction in transactions:
        for change in transaction.changes:
            model.apply_change(tables, change)
    return tables, transactions[-1].end if transactions else 0


def loaded(case, program):
    """A load, or first one that is cut off, and sessions that come after it."""
    rng = random.Random(case)
    maker = Maker(rng)
    transactions = maker.history()
    version = rng.choice((1, 2, 2))
    delivery = Delivery(rng, maker.values, transactions, maker.oids, version, 1)
    content = delivery.sessions[0]
    if len(content) > ENOUGH:
        return
    good = next((at for at, it in enumerate(transactions) if it.bad), len(transactions))
    count = rng.randint(0, good)
    tables, end = loaded_tables(transactions[:count])
    if count < len(transactions):
        end = rng.randint(end, max(end, transactions[count].lsn))
    runs = Loaded(rng, program, version, Load(rng, tables), end)
    if rng.random() < 0.3 and not runs.cut():
        return
    runs.take(content)
    if rng.random() < 0.5:
        runs.go_on(content)
