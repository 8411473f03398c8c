"""Planted bugs: subscribers that each do one thing wrong, to see after how many cases the
difference is found.

They are the model's reader with a bug, in place of the program.
"""

import feed_folder
from feed_text import NEW_NAME

from . import tables as model
from .followed import Followed, exit_status
from .reader import Reader
from .recording import LONGEST, BadLine, sessions_of
from .shown import Shown
from .wire import NULL, UNSENT, Change, lsn_text


class KeepsRolledBack(Reader):
    """a rolled-back subtransaction is kept"""

    layer = "spools"

    def streamed(self, letter, fields):
        if letter != b"A" or fields[0] == fields[1]:
            super().streamed(letter, fields)


class CutsAtLast(Reader):
    """an abort cuts at the last item of the subtransaction, not the first"""

    layer = "spools"

    def drop(self, xid, first=0):
        labels = [label for label, _, _ in self.spools[xid]]
        if first:
            first = len(labels) - 1 - labels[::-1].index(labels[first])
        super().drop(xid, first)


class AppliesTwice(Reader):
    """a repeat is applied again"""

    layer = "subscriber"

    def commit(self, xid, end):
        position, self.position = self.position, -1
        super().commit(xid, end)
        self.position = max(position, self.position)


class SkipsRelations(Reader):
    """the Relation messages of a repeat are skipped too"""

    layer = "relation cache"

    def commit(self, xid, end):
        if end <= self.position:
            self.drop(xid)
            del self.spools[xid]
        else:
            super().commit(xid, end)


class CachesEarly(Reader):
    """a Relation message fills the cache when it arrives"""

    layer = "relation cache"

    def message(self, content):
        super().message(content)
        for spool in self.spools.values():
            if spool and content[:1] == b"R" and hasattr(spool[-1][1], "columns"):
                self.cache[spool[-1][1].oid] = spool[-1][1]

    def commit(self, xid, end):
        self.spools[xid] = [it for it in self.spools[xid] if not hasattr(it[1], "columns")]
        super().commit(xid, end)


class KeepsSpools(Reader):
    """open transactions outlive a disconnection"""

    layer = "spools"

    def disconnect(self):
        spools, held = getattr(self, "spools", {}), getattr(self, "held", 0)
        super().disconnect()
        self.spools, self.held = spools, held


class ConfirmsInside(Reader):
    """a keepalive inside a transaction is confirmed"""

    layer = "subscriber"

    def payload(self, payload):
        place = self.place
        if payload[:1] == b"k":
            self.place = None
        super().payload(payload)
        if payload[:1] == b"k":
            self.place = place


class IgnoresTruncate(Reader):
    """a Truncate is ignored"""

    layer = "store"

    def apply(self, tables, change):
        if change.letter != b"T":
            super().apply(tables, change)


class NullForUnsent(Reader):
    """null is written for a cell that wasn't sent"""

    layer = "store"

    def apply(self, tables, change):
        if change.letter == b"U" and UNSENT not in (
            change.new if change.old is None else change.old
        ):
            new = [NULL if cell == UNSENT else cell for cell in change.new]
            change = Change(change.letter, change.definitions, change.old_kind, change.old, new)
        super().apply(tables, change)


class LosesCopy(Reader):
    """a second copy of a row is lost"""

    layer = "store"

    def apply(self, tables, change):
        super().apply(tables, change)
        for definition in change.definitions:
            rows = tables[definition.oid][1]
            for identity, (cells, copies) in rows.items():
                rows[identity] = (cells, min(copies, 1))


class KeepsOldIdentities(Reader):
    """rows that are carried over keep their old identities"""

    layer = "identity"

    def apply(self, tables, change):
        definition = change.definitions[0] if change.definitions else None
        if change.letter != b"T" and definition.oid in tables:
            was, rows = tables[definition.oid]
            if rows and was.shape != definition.shape:
                kept = {}
                for identity, row in rows.items():
                    kept[identity] = next(
                        iter(model.carry(was, definition, {identity: (row[0], 1)}).values())
                    )
                tables[definition.oid] = (definition, kept)
        super().apply(tables, change)


class Overwrites(Reader):
    """an Insert overwrites the row whose identity is stored already"""

    layer = "store"

    def apply(self, tables, change):
        definition = change.definitions[0] if change.definitions else None
        if (
            change.letter == b"I"
            and definition.keyed
            and len(change.new) == definition.width
            and definition.oid in tables
        ):
            tables[definition.oid][1].pop(definition.identity(change.new), None)
        super().apply(tables, change)


class SwapsLsns(Reader):
    """the two LSNs of a Stream Commit are swapped"""

    layer = "messages"

    def step(self, letter, fields, length):
        if letter == b"c":
            xid, lsn, end, time = fields
            fields = (xid, end, lsn, time)
        super().step(letter, fields, length)


class TakesAnySegment(Reader):
    """a first segment of an open transaction is accepted, and a later one of an unknown one"""

    layer = "order"

    def streamed(self, letter, fields):
        if letter == b"S":
            fields = (fields[0], int(fields[0] not in self.spools))
        super().streamed(letter, fields)


class TakesAnyCommit(Reader):
    """a Commit with another LSN than its Begin's is accepted"""

    layer = "order"

    def step(self, letter, fields, length):
        if letter == b"C" and self.place == "pair":
            fields = (None, self.final, *fields[2:])
        super().step(letter, fields, length)


class SearchesByNew(Reader):
    """an Update of a keyed table looks for its row by the new tuple, though an old one was sent"""

    layer = "identity"

    def apply(self, tables, change):
        if change.letter == b"U" and change.definitions[0].keyed:
            change = Change(change.letter, change.definitions, None, None, change.new)
        super().apply(tables, change)


class EndsWell(Reader):
    """a rejected stream ends with status 0"""

    layer = "program"

    def status(self):
        return 0


class DropsTruncatedHeader(Reader):
    """the part of a frame's header that a chunk ends with is dropped"""

    layer = "frames"

    def joined(self, chunks):
        content = b""
        for chunk in chunks:
            content += chunk
            at = 0
            while len(content) - at >= 5:
                at += 1 + int.from_bytes(content[at + 1 : at + 5], "big")
            if at < len(content) < at + 5:
                content = content[:at]
        return content


PLANTED = (
    DropsTruncatedHeader,
    SwapsLsns,
    TakesAnySegment,
    TakesAnyCommit,
    KeepsRolledBack,
    CutsAtLast,
    KeepsSpools,
    SkipsRelations,
    CachesEarly,
    KeepsOldIdentities,
    SearchesByNew,
    IgnoresTruncate,
    NullForUnsent,
    LosesCopy,
    Overwrites,
    AppliesTwice,
    ConfirmsInside,
    EndsWell,
)


class Planted:
    """Stands for the program, with a reader of its own."""

    def __init__(self, reader, folder):
        self.reader, self.folder = reader, folder
        self.files, self.stores, self.feeds, self.beside = {}, {}, {}, {}

    def path_of(self, name):
        """The name of a store or of a feed that isn't there yet."""
        for them in (self.stores, self.feeds, self.beside):
            them.pop(name, None)
        return name

    def file(self, name, content):
        self.files[name] = content
        return name

    def copied_alone(self, store):
        """The store: it has no log."""
        return store

    def store_findings(self, _store, _wanted):
        """Nothing: there is no file."""
        return []

    def saved(self, store):
        return self.stores.get(store)

    def put_back(self, store, saved):
        self.stores[store] = saved

    def put_beside(self, feed, name, content):
        segments = self.feeds[feed].segments if feed in self.feeds else {}
        base = int(name, 16) if len(name) == 16 else None
        if base in segments:
            segments[base].text = content
        else:
            self.beside.setdefault(feed, {})[name] = content

    def feed_findings(self, feed, wanted):
        found = self.feeds[feed].files() if feed in self.feeds else {}
        return feed_folder.differences({**found, **self.beside.get(feed, {})}, wanted)

    def open_feed(self, reader, words):
        """Opens the feed that a command keeps."""
        told = dict(
            it[len("--feed") :].split("=", 1)
            for it in words
            if it.startswith("--feed") and "=" in it
        )
        path = (
            told.pop("")
            if "" in told
            else words[words.index("--feed") + 1]
            if "--feed" in words
            else None
        )
        reader.writer = None
        if path:
            numbers = {name: int(told.pop(name)) for name in [*told] if name.startswith("-segment")}
            asked = {
                name[1:].replace("-", "_"): value for name, value in {**told, **numbers}.items()
            }
            for it in words:
                if it.startswith("--messages="):
                    asked["messages"] = int(it.partition("=")[2])
            folder, wanted = self.feeds.get(path) or reader.folder(), feed_folder.Asked(**asked)
            if not wanted.is_too_long():
                self.beside.get(path, {}).pop(NEW_NAME, None)
            folder.open(reader.position, wanted)
            self.feeds[path] = reader.writer = folder

    def reader_for(self, words):
        """The reader that a command begins with: over its store, if it names one."""
        reader = (Shown if words[0] == "show" else self.reader)(
            1 if "1" in words or "--proto=1" in words else 2
        )
        if "--store" in words:
            store = words[words.index("--store") + 1]
            reader = self.stores[store].restarted() if store in self.stores else reader
            self.stores[store] = reader
        return reader

    def read(self, words, name):
        reader = self.reader_for(words)
        if words[0] == "dump":
            return reader
        content = self.files[name]
        sessions = (
            [content]
            if "--raw" in words
            else [reader.joined(chunks) for chunks in sessions_of(content)]
        )
        self.open_feed(reader, words)
        return reader.follow(sessions)

    def follow(self, words, content):
        reader = self.reader_for(words)
        try:
            self.open_feed(reader, words)
        except feed_folder.NotOpened as why:
            return 3, b"", f"pgsub: {why}\n".encode()
        followed = Followed(reader).follow(content)
        line = f"pgsub: {reader.fault}\n".encode() if reader.fault else b""
        return exit_status(reader), followed.written, followed.told + line

    def run(self, *words, given=None):
        if words[0] == "follow":
            return self.follow(words, self.files[given])
        recordings = (
            words[-2:]
            if words[0] == "same"
            else words[-1:]
            if "--raw" not in words and words[0] != "dump"
            else ()
        )
        if any(len(self.files[name]) > LONGEST for name in recordings):
            return 3, b"", b"pgsub: capture too long\n"
        if words[0] == "same":
            return self.same(words)
        if words[0] == "watch":
            return 0, b"session\n" * len(sessions_of(self.files[words[-1]])), b""
        try:
            read = self.read(words, words[-1])
        except BadLine as bad:
            return 3, b"", f"pgsub: capture line {bad}: not hexadecimal\n".encode()
        except feed_folder.NotOpened as why:
            return 3, b"", f"pgsub: {why}\n".encode()
        line = f"pgsub: {read.fault}\n".encode() if read.fault else b""
        if words[0] == "resume":
            out = f"position {lsn_text(read.position)}\nconfirmed {lsn_text(read.confirmed)}\n".encode()
        elif words[0] == "show":
            out = read.text()
        else:
            out = model.dump(read.tables, read.position)
        return read.status(), out, line

    def same(self, words):
        sides = [self.read(words, name) for name in words[-2:]]
        for name, side in zip(("left", "right"), sides):
            if side.fault:
                return 1, b"", f"pgsub: {name}: {side.fault}\n".encode()
        left, right = (lsn_text(side.position) for side in sides)
        if left != right:
            return 4, f"positions {left} {right}\n".encode(), b""
        if model.dump(sides[0].tables, 0) != model.dump(sides[1].tables, 0):
            return 4, f"rows differ at {left}\n".encode(), b""
        return 0, f"same {left}\n".encode(), b""
