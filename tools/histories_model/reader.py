"""What any bytes at all lead to: sessions read frame by frame up to the first fault, as
docs/PROTOCOL.md says."""

import struct

from . import tables as model
from .wire import Change, Column, Definition

MAX_FRAME = 16777216
MAX_BYTES = 67108864
REASONS = {
    1: "UnknownMessage",
    2: "Short",
    3: "Trailing",
    4: "BadFlag",
    5: "BadLetter",
    6: "NotUtf8",
    7: "BadCount",
}
TUPLE_REASONS = {1: "Short", 2: "BadKind", 3: "BadLength", 4: "NotUtf8", 5: "TooManyColumns"}
WIRE = {
    1: "UnknownFrame",
    2: "BadLength",
    3: "TooLarge",
    4: "AfterDone",
    5: "UnknownServerMessage",
    6: "Short",
    7: "Trailing",
    8: "BadReplyByte",
}
ORDER = {
    1: "OutsideTransaction",
    2: "NestedBegin",
    3: "CommitWithoutBegin",
    4: "CommitLsnDiffers",
    5: "NestedStart",
    6: "StopWithoutStart",
    7: "FirstFlagOnOpen",
    8: "LaterFlagOnUnknown",
    9: "CommitOfUnknown",
    10: "StreamInVersion1",
    11: "CommitMisplaced",
    12: "AbortMisplaced",
}


class Fault(Exception):
    """The text of the first fault."""


def wire_fault(number, byte=None):
    return Fault(f"wire {number} {WIRE[number]}" + ("" if byte is None else f" {byte}"))


def order_fault(number):
    return Fault(f"order {number} {ORDER[number]}")


class Body:
    """The fields of a logical message, read from the left."""

    def __init__(self, content):
        self.content, self.at = content, 0

    def fault(self, number, at=None):
        return Fault(f"decode {number} {REASONS[number]} at {self.at if at is None else at}")

    def number(self, layout):
        length = struct.calcsize(layout)
        if len(self.content) - self.at < length:
            raise self.fault(2)
        value = struct.unpack_from(">" + layout, self.content, self.at)[0]
        self.at += length
        return value

    def one_of(self, allowed, reason):
        at = self.at
        value = self.number("B")
        if value not in allowed:
            raise self.fault(reason, at)
        return value

    def string(self):
        end = self.content.find(b"\0", self.at)
        if end < 0:
            raise self.fault(2)
        value = self.content[self.at : end]
        try:
            value.decode()
        except UnicodeDecodeError:
            raise self.fault(6) from None
        self.at = end + 1
        return value

    def count(self, layout, most=None):
        at = self.at
        value = self.number(layout)
        if value < 0 or most is not None and value > most:
            raise self.fault(7, at)
        return value

    def take(self, length):
        if len(self.content) - self.at < length:
            raise self.fault(2)
        self.at += length
        return self.content[self.at - length : self.at]

    def tuple(self):
        """TupleData. A fault names the offset in the body of the tuple's field that can't be
        read."""
        content, at = self.content, self.at

        def fault(number, field=0):
            return Fault(f"decode 8 Tuple {number} {TUPLE_REASONS[number]} at {at + field}")

        if len(content) - at < 2:
            raise fault(1)
        width = struct.unpack_from(">h", content, at)[0]
        if not 0 <= width <= 1600:
            raise fault(5)
        at += 2
        cells = []
        for _ in range(width):
            kind = content[at : at + 1]
            if not kind:
                raise fault(1)
            if kind not in b"nutb":
                raise fault(2)
            if kind in b"nu":
                cells.append(kind)
                at += 1
                continue
            if len(content) - at < 5:
                raise fault(1, 1)
            length = struct.unpack_from(">i", content, at + 1)[0]
            if length < 0:
                raise fault(3, 1)
            if len(content) - at - 5 < length:
                raise fault(1, 5)
            cell = content[at : at + 5 + length]
            if kind == b"t":
                try:
                    cell[5:].decode()
                except UnicodeDecodeError:
                    raise fault(4, 5) from None
            cells.append(cell)
            at += 5 + length
        self.at = at
        return cells

    def end(self):
        if self.at < len(self.content):
            raise self.fault(3)


def relation(body):
    oid, namespace, name = body.number("I"), body.string(), body.string()
    letter = bytes([body.one_of(b"dnfi", 5)])
    columns = []
    for _ in range(body.count("h", 1600)):
        flag = body.one_of((0, 1), 4)
        column = body.string()
        columns.append(Column(flag, column, body.number("I"), body.number("i")))
    return Definition(oid, namespace, name, letter, columns)


def change(letter, body):
    """A change whose definitions are still OIDs."""
    if letter == b"T":
        count = body.count("i")
        options = body.one_of(range(4), 4)
        return Change(
            letter, list(struct.unpack(f">{count}I", body.take(4 * count))), options=options
        )
    oid = body.number("I")
    old_kind = old = new = None
    if letter == b"I":
        body.one_of(b"N", 5)
        new = body.tuple()
    elif letter == b"D":
        old_kind = bytes([body.one_of(b"KO", 5)])
        old = body.tuple()
    else:
        kind = bytes([body.one_of(b"KON", 5)])
        if kind != b"N":
            old_kind, old = kind, body.tuple()
            body.one_of(b"N", 5)
        new = body.tuple()
    return Change(letter, [oid], old_kind, old, new)


def decode(content, in_block):
    """A message: (letter, fields ..)."""
    body = Body(content)
    letter = bytes([body.number("B")])
    if letter not in (
        b"B",
        b"C",
        b"O",
        b"R",
        b"Y",
        b"I",
        b"U",
        b"D",
        b"T",
        b"M",
        b"S",
        b"E",
        b"c",
        b"A",
    ):
        raise body.fault(1, 0)
    label = body.number("I") if in_block and letter in b"RYIUDTM" else None
    if letter == b"B":
        fields = (body.number("Q"), body.number("q"), body.number("I"))
    elif letter in b"Cc":
        xid = body.number("I") if letter == b"c" else None
        body.one_of((0,), 4)
        fields = (xid, body.number("Q"), body.number("Q"), body.number("q"))
    elif letter == b"O":
        fields = (body.number("Q"), body.string())
    elif letter == b"R":
        fields = (label, relation(body))
    elif letter == b"Y":
        fields = (label, body.number("I"), body.string(), body.string())
    elif letter in b"IUDT":
        fields = (label, change(letter, body))
    elif letter == b"M":
        fields = (
            label,
            body.one_of((0, 1), 4),
            body.number("Q"),
            body.string(),
            body.take(body.count("i")),
        )
    elif letter == b"S":
        fields = (body.number("I"), body.one_of((0, 1), 4))
    elif letter == b"A":
        fields = (body.number("I"), body.number("I"))
    else:
        fields = ()
    body.end()
    return letter, fields


class Reader:
    """A subscriber that starts empty."""

    def __init__(self, version):
        self.version = version
        self.max_frame, self.max_bytes = MAX_FRAME, MAX_BYTES
        self.tables = {}
        self.position = self.confirmed = 0
        self.fault = None
        # the OID of each change that found no row, and the end of its commit; and those of the
        # commit that is tried
        self.missed, self.trial_missed = [], []
        self.disconnect()

    def restarted(self):
        """A new subscriber over the rows and the position that this one has stored."""
        new = type(self)(self.version)
        new.max_frame, new.max_bytes = self.max_frame, self.max_bytes
        new.tables, new.position, new.confirmed = self.tables, self.position, self.position
        return new

    def disconnect(self):
        self.place, self.top, self.final = None, None, None
        self.cache = {}
        self.spools = {}
        self.held = 0
        self.rest, self.is_done = b"", False
        self.received, self.replies = self.confirmed, []

    def follow(self, sessions):
        try:
            for content in sessions:
                self.disconnect()
                self.session(content)
        except Fault as fault:
            self.fault = str(fault)
        except model.StoreFault as fault:
            self.fault = fault.text()
        return self

    def session(self, content):
        self.feed(content)

    def feed(self, piece):
        """Reads further bytes of a session, up to the first fault."""
        content = self.rest + piece
        self.rest = content[self.frames(content) :]

    def frames(self, content):
        """Reads the whole frames of some bytes; the offset behind them."""
        at = 0
        while at < len(content):
            letter = content[at]
            if self.is_done:
                raise wire_fault(4)
            if letter not in b"dc":
                raise wire_fault(1, letter)
            if len(content) - at < 5:
                break
            length = struct.unpack_from(">I", content, at + 1)[0]
            if length < 4 or length > 2147483647 or letter == ord("c") and length != 4:
                raise wire_fault(2)
            if length - 4 > self.max_frame:
                raise wire_fault(3)
            if len(content) - at - 1 < length:
                break
            payload = content[at + 5 : at + 1 + length]
            at += 1 + length
            if letter == ord("c"):
                self.is_done = True
                self.done()
            else:
                self.payload(payload)
        return at

    def done(self):
        """At CopyDone."""

    def payload(self, payload):
        if not payload:
            raise wire_fault(6)
        if payload[0] not in b"wk":
            raise wire_fault(5, payload[0])
        if payload[:1] == b"w":
            if len(payload) < 25:
                raise wire_fault(6)
            self.message(payload[25:])
            self.received = max(self.received, self.confirmed, *struct.unpack(">QQ", payload[1:17]))
            return
        if len(payload) != 18:
            raise wire_fault(6 if len(payload) < 18 else 7)
        if payload[17] > 1:
            raise wire_fault(8)
        self.keepalive(*struct.unpack(">QqB", payload[1:]))

    def keepalive(self, end, _clock, reply):
        if self.place is None:
            self.confirmed = max(self.confirmed, end)
        self.received = max(self.received, self.confirmed, end)
        if reply:
            self.replies.append(self.status_fields())

    def status_fields(self):
        """What a status says now: written, flushed, applied."""
        return self.received, self.confirmed, self.confirmed

    def message(self, content):
        letter, fields = decode(content, self.place == "block")
        self.step(letter, fields, len(content))

    def step(self, letter, fields, length):
        """Handles a message that was decoded."""
        if letter in b"SEcA":
            if self.version == 1:
                raise order_fault(10)
            self.streamed(letter, fields)
        elif letter == b"B":
            if self.place or fields[2] in self.spools:
                raise order_fault(2)
            self.place, self.final, self.top = "pair", fields[0], fields[2]
            self.spools[self.top] = []
        elif letter == b"C":
            if self.place != "pair":
                raise order_fault(11 if self.place else 3)
            if fields[1] != self.final:
                raise order_fault(4)
            self.place = None
            self.commit(self.top, fields[2])
        elif letter != b"M" and self.place is None:
            raise order_fault(1)
        elif letter in b"RIUDT":
            label = self.top if fields[0] is None else fields[0]
            self.hold(label, fields[1], 8 + length - (4 if self.place == "block" else 0))

    def hold(self, label, it, cost):
        if cost + self.held > self.max_bytes:
            raise Fault("spool 1 SpoolFull")
        self.held += cost
        self.spools[self.top].append((label, it, cost))

    def drop(self, xid, first=0):
        """Drops the items of a transaction from one on."""
        spool = self.spools[xid]
        self.held -= sum(cost for _, _, cost in spool[first:])
        del spool[first:]

    def streamed(self, letter, fields):
        xid = fields[0] if fields else None
        if letter == b"S":
            if self.place:
                raise order_fault(5)
            if fields[1] == (xid in self.spools):
                raise order_fault(7 if fields[1] else 8)
            self.place, self.top = "block", xid
            self.spools.setdefault(xid, [])
        elif letter == b"E":
            if self.place != "block":
                raise order_fault(6)
            self.place = None
        elif self.place:
            raise order_fault(11 if letter == b"c" else 12)
        elif letter == b"c":
            if xid not in self.spools:
                raise order_fault(9)
            self.commit(xid, fields[2])
        elif xid in self.spools:
            if fields[1] == xid:
                self.drop(xid)
                del self.spools[xid]
            else:
                labels = [label for label, _, _ in self.spools[xid]]
                if fields[1] in labels:
                    self.drop(xid, labels.index(fields[1]))

    def apply(self, tables, it):
        if not model.apply_change(tables, it):
            self.trial_missed.append(it.definitions[0].oid)

    def joined(self, chunks):
        """The bytes of a session from its chunks."""
        return b"".join(chunks)

    def status(self):
        """The exit status of the program that read this."""
        return int(self.fault is not None)

    def commit(self, xid, end):
        """Applies a commit, or only remembers the definitions of one that was applied before."""
        changes = []
        for _, it, _ in self.spools[xid]:
            if isinstance(it, Definition):
                self.cache[it.oid] = it
            elif end > self.position:
                for oid in it.definitions:
                    if oid not in self.cache:
                        raise Fault(f"relation 5 UnknownRelation {oid}")
                definitions = [self.cache[oid] for oid in it.definitions]
                changes.append(Change(it.letter, definitions, it.old_kind, it.old, it.new))
        if end > self.position:
            trial, self.trial_missed = model.copied(self.tables), []
            for it in changes:
                self.apply(trial, it)
            self.tables, self.position = trial, end
            self.missed += [(oid, end) for oid in self.trial_missed]
            self.confirmed = max(self.confirmed, end)
        self.drop(xid)
        del self.spools[xid]
