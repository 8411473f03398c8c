"""Histories that the program and SQL text write in turns: each goes on with the file that the other
has left."""

import random
from pathlib import Path

from stores.text import PAGE_SIZES, Writer

from . import tables as model
from .cases import check_store, compare, compare_followed, spool_words, stop_line, version_words
from .followed import Followed
from .history import Maker, Values
from .reader import Reader
from .stream import Session
from .wire import binary, text


class ManyValues(Values):
    """Keys of hundreds of rows, and more cells that are longer than the page of a file."""

    def key_cell(self):
        return (
            text(b"%d" % self.rng.randint(0, 500))
            if self.rng.random() < 0.9
            else super().key_cell()
        )

    def cell(self):
        if self.rng.random() < 0.95:
            return super().cell()
        return binary(self.rng.randbytes(int(10 ** self.rng.uniform(1, 3.7))))


class LargeMaker(Maker):
    """Makes histories whose tables take many pages, and leave them again."""

    truncates, alters = 0.001, 0.003

    def make_values(self):
        return ManyValues(self.rng)

    def count(self):
        return self.rng.randint(3, 10)

    def sizes(self):
        return self.rng.choice(((1, 30), (50, 150), (100, 300)))

    def transaction(self, lsn, end, bad):
        self.few, self.deletes_from = self.rng.choice(
            ((400, 0.95), (400, 0.95), (100, 0.85), (0, 0.4))
        )
        return super().transaction(lsn, end, bad)


class Turns:
    """A file that the program and SQL text write in turns, and what the model has read."""

    def __init__(self, rng, program, version):
        self.rng, self.program, self.version = rng, program, version
        self.store = program.path_of("copy.db")
        self.writer = Writer(Path(self.store), rng)
        self.read, self.number = Reader(version), 0

    def take(self, content, by_text):
        """The next session comes, and one of the two writes what it makes."""
        before, self.read = self.read, self.read.restarted()
        self.number += 1
        if by_text:
            self.read.follow([content])
            self.write(model.contents(before.tables, before.position))
            return
        if self.rng.random() < 0.3:
            self.follow(content)
        else:
            self.apply(content)
        check_store(self.program, self.store, self.read)

    def apply(self, content):
        read = self.read.follow([content])
        status, rows, line = (
            int(read.fault is not None),
            model.dump(read.tables, read.position),
            stop_line(read.fault),
        )
        file = self.program.file(f"session.{self.number}.raw", content)
        compare(
            "applied after SQL text",
            self.program,
            ["apply", *self.words(), "--raw", file],
            status,
            rows,
            line,
        )

    def follow(self, content):
        followed = Followed(self.read).follow(content)
        file = self.program.file(f"input.{self.number}", content)
        words = [*self.words(), *spool_words(self.number + len(content), self.program)]
        compare_followed("followed after SQL text", self.program, words, followed, file)

    def words(self):
        return [*self.store_words(), *version_words(self.rng, self.version)]

    def store_words(self):
        """The store, and how many of its pages stay in memory: few, since those of a file that SQL
        text has made may be large."""
        return ["--store", self.store, "--cache", self.rng.choice(("100", "100", "1000"))]

    def write(self, before):
        after = model.contents(self.read.tables, self.read.position)
        luck = self.rng.random()
        if luck < 0.25:
            self.writer.write_log(before, after)
            return
        self.writer.write(before, after)
        if luck > 0.9:
            self.writer.vacuum(self.rng.choice(PAGE_SIZES))
        elif luck > 0.7:
            self.writer.vacuum()
        check_store(self.program, self.store, self.read)

    def compare_dump(self):
        rows = model.dump(self.read.tables, self.read.position)
        compare(
            "the rows after SQL text", self.program, ["dump", *self.store_words()], 0, rows, b""
        )


def sessions_of(rng, maker, history, version, turns):
    """Makes the next session that a server sends of a history: it begins at the position or before,
    and mostly ends a little further on."""
    while not turns.read.fault and turns.number < 12:
        position = turns.read.position
        done = sum(transaction.end <= position for transaction in history)
        if done == len(history) and rng.random() < 0.7:
            return
        start = rng.choice((position, position, 0, rng.randint(0, position)))
        session = Session(rng, maker.values, history, start, version, maker.oids)
        frames = session.make(done + rng.choice((-1, 0, 0, 0, 1, 3)))
        content = b"".join(frame for frame, _ in frames)
        yield content if rng.random() < 0.8 else content[: rng.randint(0, len(content))]


def in_turns(rng, maker, program, page_size=None):
    """A history in turns; the file is the program's, or where there is a size for its pages SQL
    text makes it."""
    version = rng.choice((1, 2, 2))
    history = maker.history()
    turns = Turns(rng, program, version)
    by_text = False
    if page_size:
        turns.writer.make(page_size)
        by_text = rng.random() < 0.7
    for content in sessions_of(rng, maker, history, version, turns):
        turns.take(content, by_text)
        by_text = rng.random() < (0.2 if by_text else 0.7)
    if page_size or turns.number:
        turns.compare_dump()


def written(case, program):
    """A random history, that the program and SQL text write in turns."""
    rng = random.Random(case)
    maker = LargeMaker(rng) if rng.random() < 0.3 else Maker(rng)
    in_turns(rng, maker, program, rng.choice(PAGE_SIZES) if rng.random() < 0.5 else None)


def of_pages(size, number, program):
    """A large history in a file with pages of one size."""
    rng = random.Random(f"pages {size} {number}")
    maker = LargeMaker(rng)
    maker.bad_share = 0
    in_turns(rng, maker, program, size)
