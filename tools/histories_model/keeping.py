"""Runs that keep a feed beside a store: after each of them its folder has to be the model's to the
byte.

So each commit has its final LSN, its xid and its time, and each change the rows before and after
it.
"""

import random
from copy import deepcopy
from dataclasses import replace
from functools import partial

from built import TOP
from feed_folder import (
    LAST_LSN,
    SECOND,
    SEGMENT_BYTES,
    TOO_LONG,
    Asked,
    Folder,
    NotOpened,
)
from feed_text import NEW_NAME, SEGMENT_SIZE, closing_line, entry_text, segment_name

from . import history
from . import tables as model
from .cases import (
    ENOUGH,
    Difference,
    cache_words,
    check_store,
    compare,
    compare_followed,
    damage,
    spool_words,
    stop_line,
    version_words,
)
from .fed import Feeding
from .followed import Followed
from .recording import BadLine, recording, sessions_of
from .stream import Delivery

TEXTS = (
    "",
    "7",
    "7530000000000000001",
    "shop",
    "pgsub",
    'a "quoted" name',
    "back\\slash",
    "größe 表",
    "a\tb\n",
    "\x01\x7f",
    "-",
)
SIZES = (SEGMENT_BYTES, SEGMENT_BYTES, SEGMENT_BYTES, LAST_LSN, 0, 1, 1024, 1500, 3000, 20000)
AGES = (1, 1, 1, 2, 2**32 - 1)


class Values(history.Values):
    """Times that are some seconds apart, and a microsecond less or more."""

    def __init__(self, rng):
        super().__init__(rng)
        self.origin = rng.choice((0, 753000000123456, -2 * SECOND - 1))

    def signed(self, bits):
        rng = self.rng
        luck = rng.random()
        if luck < 0.15:
            # (the lowest number is no time)
            return max(super().signed(bits), 1 - 2 ** (bits - 1))
        seconds = rng.randint(0, 2) if luck < 0.95 else 2**32 - 1
        return self.origin + seconds * SECOND + rng.choice((-1, 0, 0, 0, 0, 1))


class Maker(history.Maker):
    def make_values(self):
        return Values(self.rng)


def asked_of(rng):
    """What some runs are asked to keep."""
    size = rng.choice(SIZES)
    age = rng.choice(AGES) if rng.random() < (0.7 if size >= SEGMENT_BYTES else 0.2) else 0
    messages = rng.choice((0, 1 << 20))
    asked = Asked(*(rng.choice(TEXTS) for _ in range(3)), size, age, messages)
    if rng.random() < 0.96:
        return asked
    # the head of a segment may be full, or have a byte too many
    left = SEGMENT_SIZE - 1 - len(replace(asked, slot="").head(LAST_LSN).rstrip())
    return replace(asked, slot="s" * (left + rng.randint(0, 1)))


def feed_words(rng, feed, asked):
    words = rng.choice((["--feed", feed], [f"--feed={feed}"]))
    others = Asked()
    for name in ("system", "database", "slot", "segment_bytes", "segment_seconds"):
        value = getattr(asked, name)
        if value != getattr(others, name) or rng.random() < 0.2:
            words.append(f"--feed-{name.replace('_', '-')}={value}")
    return words + ([f"--messages={asked.messages}"] if asked.messages else [])


class Runs:
    """Runs over one store that keep its feed, and what the model has of both."""

    def __init__(self, rng, program, version, asked, name="copy"):
        self.rng, self.program, self.version, self.asked, self.name = (
            rng,
            program,
            version,
            asked,
            name,
        )
        self.store = program.path_of(f"{name}.db")
        self.read, self.number = Feeding(version), 0
        # after some runs what the model had read, and the store's files
        self.saved = []
        self.begin_feed()

    def begin_feed(self):
        """Names a folder that isn't there yet."""
        self.feed = self.program.path_of(f"{self.name}.feed.{self.number}")
        self.read.writer, self.beside = Folder(), {}

    def run(self, sessions, way, keeps=True):
        """One run: sessions come in a recording, one comes as raw bytes or is followed."""
        self.number += 1
        if self.version == 2:
            # (a message in a block ends the run)
            self.asked = replace(self.asked, messages=0)
        read = self.read = self.read.restarted()
        folder, why = read.writer, None
        try:
            if keeps:
                folder.open(read.position, self.asked)
        except NotOpened as unopened:
            why = str(unopened)
        if keeps and why != TOO_LONG:
            self.beside.pop(NEW_NAME, None)
        read.writer = folder if keeps else None
        words = [
            "--store",
            self.store,
            *cache_words(self.number),
            *version_words(self.rng, self.version),
        ]
        words += feed_words(self.rng, self.feed, self.asked) if keeps else []
        self.compare(sessions, way, words, why)
        read.writer = folder
        check_store(self.program, self.store, read)
        told = self.program.feed_findings(self.feed, {**folder.files(), **self.beside})
        if told:
            raise Difference(f"run {self.number}, the feed {self.feed}\n   " + "\n   ".join(told))
        return why is None

    def compare(self, sessions, way, words, why):
        """Compares what a run prints; `why`: it ends at once, since the folder has no feed of this
        store."""
        read, what, is_live = self.read, f"run {self.number}", way == "followed"
        if way == "recording":
            file = self.program.file(f"run.{self.number}.pgx", recording(self.rng, sessions))
        else:
            file = self.program.file(f"run.{self.number}.raw", *sessions)
        whole = (
            ["follow", *words]
            if is_live
            else ["apply", *words, *(["--raw"] if way == "raw" else []), file]
        )
        if why:
            compare(what, self.program, whole, 3, b"", stop_line(why), file if is_live else None)
        elif is_live:
            words = [*words, *spool_words(self.number + len(sessions[0]), self.program)]
            compare_followed(what, self.program, words, Followed(read).follow(*sessions), file)
        else:
            read.follow(sessions)
            status, rows = int(read.fault is not None), model.dump(read.tables, read.position)
            compare(what, self.program, whole, status, rows, stop_line(read.fault))

    # what happens between runs

    def take(self, sessions):
        """A run or two; the first of two has only a part of the first session."""
        rng = self.rng
        if rng.random() < 0.5:
            self.take_once([sessions[0][: rng.randint(0, len(sessions[0]))]])
        self.take_once(sessions)

    def take_once(self, sessions):
        rng = self.rng
        if self.number and rng.random() < 0.3:
            self.crash()
        luck = rng.random()
        if luck < 0.2:
            self.choose_size(sessions)
        elif luck < 0.35:
            self.asked = replace(
                self.asked, segment_bytes=SEGMENT_BYTES, segment_seconds=rng.choice(AGES)
            )
        way = (
            "recording"
            if len(sessions) > 1
            else rng.choice(("recording", "raw", "followed", "followed"))
        )
        if not self.run(sessions, way, rng.random() < 0.95):
            self.asked = asked_of(rng)
            self.begin_feed()
        elif rng.random() < 0.6:
            self.saved.append((self.read, self.program.saved(self.store)))
        elif rng.random() < 0.2:
            self.asked = asked_of(rng)

    def choose_size(self, sessions):
        """Has a segment end just before or just behind one of the next commits."""
        trial = deepcopy(self.read.restarted())
        try:
            trial.writer.open(
                trial.position, replace(self.asked, segment_bytes=LAST_LSN, segment_seconds=0)
            )
        except NotOpened:
            return
        lengths = [*trial.follow(sessions).writer.last().ends.values()]
        if lengths:
            self.asked = replace(
                self.asked, segment_bytes=self.rng.choice(lengths) + self.rng.choice((-1, 0, 0, 1))
            )

    def crash(self):
        """What a crash may leave: a store that lacks the feed's last commits, a rest behind these,
        a part of the head of a segment that hasn't its name yet."""
        rng, folder = self.rng, self.read.writer
        if self.saved and rng.random() < 0.6:
            self.read, files = rng.choice(self.saved)
            self.read.writer = folder
            self.program.put_back(self.store, files)
        if folder.segments and rng.random() < 0.6:
            segment = folder.last()
            rest = rng.choice(
                (
                    rng.randbytes(300),
                    closing_line(folder.at),
                    entry_text(folder.at, folder.at + 9, ()),
                    b"{",
                )
            )
            segment.text += rest[: rng.randint(1, len(rest))]
            self.program.put_beside(self.feed, segment_name(max(folder.segments)), segment.text)
        if folder.segments and rng.random() < 0.3:
            self.beside[NEW_NAME] = self.asked.head(folder.at)[: rng.randint(0, SEGMENT_SIZE)]
            self.program.put_beside(self.feed, NEW_NAME, self.beside[NEW_NAME])
        if rng.random() < 0.2:
            # (what the connector keeps there)
            self.beside["confirmed"] = b"0/100\n"
            self.program.put_beside(self.feed, "confirmed", self.beside["confirmed"])


def fed(case, program):
    """A random history over a store with a feed, in several runs."""
    rng = random.Random(case)
    maker = Maker(rng)
    version = rng.choice((1, 2, 2))
    delivery = Delivery(
        rng, maker.values, maker.history(), maker.oids, version, rng.choice((1, 2, 2, 3, 5))
    )
    sessions = damage(rng, delivery)[0] if rng.random() < 0.2 else delivery.sessions
    if sum(map(len, sessions)) > ENOUGH:
        return
    runs = Runs(rng, program, version, asked_of(rng))
    left = list(sessions)
    while left:
        count = rng.choice((1, 1, 1, 2, 3))
        runs.take(left[:count])
        left = left[count:]
    if rng.random() < 0.5:
        runs.take(sessions)


def recorded(path, version, program):
    """A recording in one run; in one for each session, with a segment for each commit; and each
    session followed."""
    rng = random.Random(f"{path.parent.name} {path.name} {version}")
    content = path.read_bytes()
    try:
        sessions = [b"".join(chunks) for chunks in sessions_of(content)]
    except BadLine as bad:
        unreadable(program, content, stop_line(f"capture line {bad}: not hexadecimal"))
        return
    asked = Asked("7530000000000000001", "shop", "pgsub")
    Runs(rng, program, version, asked, "whole").run(sessions, "recording")
    each = Runs(rng, program, version, Asked(segment_bytes=1), "each")
    live = Runs(rng, program, version, asked, "live")
    for session in sessions:
        each.run([session], "raw")
        live.run([session], "followed")


def unreadable(program, content, line):
    """A recording that can't be read: nothing is made."""
    store, feed = program.path_of("copy.db"), program.path_of("copy.feed")
    compare(
        "an unreadable recording",
        program,
        ["apply", "--store", store, "--feed", feed, program.file("in.pgx", content)],
        3,
        b"",
        line,
    )
    if program.saved(store) or program.feed_findings(feed, {}):
        raise Difference("something was made")


def recordings():
    """Those of the examples."""
    for path in sorted((TOP / "examples").glob("*/*.pgx")):
        for version in (1, 2):
            yield f"{path.parent.name}/{path.name}, version {version}", partial(
                recorded, path, version
            )
