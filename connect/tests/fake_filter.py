#!/usr/bin/python3 -SE
"""A filter in the place of `pgsub follow`: it stores nothing but its position, and says what the
tests ask it to.

usage: fake_filter follow --store FILE [--spool FILE] [--load] [--proto N] [--feed FOLDER --feed-system TEXT --feed-database TEXT --feed-slot TEXT] [--repeats FILE] ..

The file holds the position as text, and that of --spool what has come of transactions. Of a commit the feed has the line alone. A Delete finds no row,
and anything else does. Each table of a load is a part. FAKE_FILTER in its first line's place: a file FILE.says may hold one of
these words:
  `status N TEXT`    ends at the first frame, with this status and this line on standard error
  `bytes HEX`        writes these bytes in place of its first status
  `slow SECONDS`     waits so long before its first status
  `late PATH`        takes no commit before this file is there
  `parts PATH`       says a line on standard error in two parts, the second one once this file is
                     there, which it takes away
  `dies LSN`         kills itself once it has stored the commit with this end, or the part or the end of a load, in decimal, and takes the file away
  `rejects LSN N TEXT`  ends at the commit with this end, in decimal, with this status and this line
  on standard error, and takes the
                     file away; it confirms none of those before, as if all came at once
  `tells LSN LINE`   says this line on standard error before it stores the commit with this end, in decimal
  `stops LSN LINE`   says it in the commit's place, and ends with the status of a rule that is broken

The tests start it often, so it imports little.
"""

from __future__ import annotations

import os
import struct
import sys
import time

TYPE_CHECKING = False
if TYPE_CHECKING:
    from collections.abc import Iterator

    from feed_text import Writer
    from .noted_commits import NotedCommits

# The signal that can't be handled.
KILL = 9
BEGIN, COMMIT, STREAM_COMMIT, DELETE = ord("B"), ord("C"), ord("c"), ord("D")
MISSED, BREACH = 16, 17


def frames() -> Iterator[tuple[bytes, bytes]]:
    """The frames of standard input, or those that are left of it: the tag and the payload of
    each."""
    source = sys.stdin.buffer
    while len(head := source.read(5)) == 5:
        payload = source.read(length := int.from_bytes(head[1:], "big") - 4)
        if len(payload) == length:
            yield head[:1], payload


def wait_for(path: str) -> None:
    while not os.path.exists(path):
        time.sleep(0.005)


class Fake:
    """What is stored, and what is confirmed."""

    def __init__(self, store: str, says: list[str]) -> None:
        self.store, self.position, self.says = store, 0, says
        # the tables of changes of a commit that found no row, and of all of them how many, and the
        # first one's table and commit
        self.missing: list[int] = []
        self.count, self.first = 0, (0, 0)
        if os.path.exists(store):
            with open(store, encoding="ascii") as file:
                self.position = int(file.read() or 0)
        self.confirmed, self.inside, self.received = self.position, False, 0
        self.feed: Writer | None = None
        # the file of what open transactions have
        self.spool = -1

    def open_spool(self, path: str) -> bool:
        """Makes the file empty. Returns false where that isn't possible."""
        try:
            self.spool = os.open(path, os.O_WRONLY | os.O_CREAT | os.O_TRUNC | os.O_CLOEXEC, 0o666)
        except OSError:
            print("pgsub: spool 3 NotWritten", file=sys.stderr, flush=True)
        return self.spool >= 0

    def open_feed(self, name: str, named: tuple[str, str, str]) -> bool:
        """Begins a feed, or goes on with one whose last commit is the store's. Returns false where
        it isn't that of the store."""
        from pathlib import Path

        sys.path.append(str(Path(__file__).resolve().parent.parent.parent / "tools"))
        from feed_text import COMMIT_SIZE, Writer, lsn_text

        folder = Path(name)
        there = sorted(it for it in folder.iterdir() if len(it.name) == 16)
        if there:
            last = there[-1].read_bytes()
            if not last.startswith(b'{"feed":4,'):
                return False
            commit = last[-COMMIT_SIZE:].decode() if len(last) > 1024 else ""
            if (
                f'"end":"{lsn_text(self.position)}"' not in commit
                and int(there[-1].name, 16) != self.position
            ):
                return False
        self.feed = Writer(folder, self.position, named=named)
        return True

    def status(self) -> None:
        values = struct.pack(">cQQQqB", b"r", self.received, self.confirmed, self.confirmed, 0, 0)
        os.write(1, struct.pack(">ci", b"d", len(values) + 4) + values)

    def keep(self, end: int) -> None:
        if self.says[:1] == ["late"]:
            wait_for(self.says[1])
        if self.says[:2] == ["rejects", str(end)]:
            os.unlink(self.store + ".says")
            status, line = self.says[2].split(" ", 1)
            print(line, file=sys.stderr, flush=True)
            sys.exit(int(status))
        if self.says[:1] in (["tells"], ["stops"]) and self.says[1] == str(end):
            print(self.says[2], file=sys.stderr, flush=True)
            if self.says[0] == "stops":
                print("pgsub: read", file=sys.stderr, flush=True)
                sys.exit(BREACH)
        if self.feed and end > self.position:
            from feed_text import commit_line

            self.feed.put(commit_line(end, self.position, b"", 0, None))
        self.move(end)
        self.tell(end)

    def move(self, end: int) -> None:
        """Notes a position on the disk."""
        self.position = max(self.position, end)
        self.confirmed = max(self.confirmed, end)
        with open(self.store, "w", encoding="ascii") as file:
            file.write(str(self.position))
        if self.says[:2] == ["dies", str(end)]:
            os.unlink(self.store + ".says")
            os.kill(os.getpid(), KILL)

    def load(self) -> int:
        """Reads a load; the exit status where it is none."""
        if self.position:
            print("pgsub: load 7 NotNew", file=sys.stderr, flush=True)
            return 3
        for tag, payload in frames():
            if self.says[:1] == ["status"]:
                print(self.says[2], file=sys.stderr, flush=True)
                return int(self.says[1])
            if tag != b"d" or payload[:1] not in (b"R", b"t", b"e", b"p"):
                print("pgsub: load 8 BadInput", file=sys.stderr, flush=True)
                return 1
            if payload[:1] == b"e":
                self.move(self.position + 1)
            elif payload[:1] == b"p":
                self.move(int.from_bytes(payload[1:], "big"))
                return 0
        print("pgsub: load 9 CutInput", file=sys.stderr, flush=True)
        return 15

    def tell(self, end: int) -> None:
        """Says how many changes have found no row, where the commit with this end had such ones."""
        if not self.missing:
            return
        self.first = self.first if self.count else (self.missing[0], end)
        self.count += len(self.missing)
        self.missing = []
        oid, lsn = self.first
        line = f"pgsub: rows not found: {self.count}, first in relation {oid} at {lsn >> 32:X}/{lsn & 0xFFFFFFFF:X}\n".encode()
        cut = 25 if self.says[:1] == ["parts"] else 0
        if cut:
            os.write(2, line[:cut])
            wait_for(self.says[1])
            os.unlink(self.says[1])
        os.write(2, line[cut:])

    def take(self, payload: bytes) -> None:
        """Takes a payload, and says a status where the confirmed position has moved or one is asked
        for."""
        before = self.confirmed
        if self.spool >= 0 and payload[:1] == b"w":
            os.write(self.spool, payload[25:])
        if payload[:1] == b"k":
            if not self.inside:
                self.confirmed = max(self.confirmed, int.from_bytes(payload[1:9], "big"))
        elif payload[25] == BEGIN:
            self.inside = True
        elif payload[25] == DELETE:
            self.missing.append(int.from_bytes(payload[26:30], "big"))
        elif payload[25] in (COMMIT, STREAM_COMMIT):
            at = 35 if payload[25] == COMMIT else 39
            self.keep(int.from_bytes(payload[at : at + 8], "big"))
            self.inside = False
        if (self.confirmed > before or payload[:1] == b"k" and payload[17] == 1) and self.says[
            :1
        ] != ["rejects"]:
            self.status()


def noted_of(words: list[str], position: int) -> NotedCommits | None:
    """What is to note commits, beside a store at this position."""
    if "--repeats" not in words:
        return None
    from importlib import import_module

    path = words[words.index("--repeats") + 1]
    sys.path.append(os.path.dirname(os.path.abspath(__file__)).removesuffix("/__pycache__"))
    found: NotedCommits = import_module("noted_commits").NotedCommits(path, position)
    return found


def said(store: str) -> list[str]:
    if not os.path.exists(store + ".says"):
        return []
    with open(store + ".says", encoding="ascii") as file:
        return file.read().split(" ", 2)


def main(words: list[str]) -> int:
    if "--help" in words:
        print(__doc__)
        return 0
    store = words[words.index("--store") + 1]
    says = said(store)
    fake = Fake(store, says)
    if "--spool" in words and not fake.open_spool(words[words.index("--spool") + 1]):
        return 13
    if not os.path.exists(store):
        open(store, "w", encoding="ascii").close()
    if "--load" in words and (status := fake.load()):
        return status
    if "--feed" in words:
        folder, *named = (
            words[words.index(f"--feed{it}") + 1] for it in ("", "-system", "-database", "-slot")
        )
        if not fake.open_feed(folder, (named[0], named[1], named[2])):
            print("pgsub: feed 1 NotAFeed", file=sys.stderr, flush=True)
            return 3
    noted = noted_of(words, fake.confirmed)
    if says[:1] == ["slow"]:
        time.sleep(float(says[1]))
    if says[:1] == ["bytes"]:
        os.write(1, bytes.fromhex(says[1]))
    else:
        fake.status()
    for tag, payload in frames():
        if says[:1] == ["status"]:
            print(says[2], file=sys.stderr, flush=True)
            return int(says[1])
        if noted:
            noted.begin_session() if tag == b"c" else noted.take(payload)
        if tag == b"d":
            fake.take(payload)
    if noted:
        noted.end()
    return MISSED if fake.count else 0


if __name__ == "__main__":
    sys.exit(main(sys.argv[1:]))
