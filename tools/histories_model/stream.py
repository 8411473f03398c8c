"""The sessions that a well-formed server may send of a history, and what they lead to.

A frame is (bytes, effect). The effect is None, ("commit", index of the transaction) or
("keepalive", end, quiet).
"""

from . import tables as model
from . import wire
from .history import MOST_LSN, has_changes


class Session:
    """One session: makes its frames from the transactions with an end above `start`."""

    def __init__(self, rng, values, history, start, version, oids):
        self.rng, self.values, self.history, self.version = rng, values, history, version
        self.oids = oids
        self.frames = []
        self.described = {}
        self.open = set()
        self.owner = {}
        self.place = None
        self.sent = [
            index
            for index, transaction in enumerate(history)
            if transaction.end > start and (has_changes(transaction) or rng.random() < 0.6)
        ]
        # those with changes that this session still has to complete
        self.waiting = [index for index in self.sent if has_changes(history[index])]

    # single frames

    def data(self, body, effect=None):
        rng = self.rng
        if rng.random() < 0.7:
            start = end = clock = 0
        else:
            start, end, clock = (
                self.values.number(64),
                self.values.number(64),
                self.values.signed(64),
            )
        self.frames.append((wire.xlog_data(start, end, clock, body), effect))
        while rng.random() < 0.06:
            self.keepalive()

    def keepalive(self):
        """A keepalive whose end lies below every commit with changes that is still to be
        completed."""
        rng = self.rng
        bound = self.history[self.waiting[0]].end - 1 if self.waiting else MOST_LSN
        end = rng.choice((bound, max(bound - 1, 0), rng.randint(0, bound), 0))
        frame = wire.keepalive(end, self.values.signed(64), rng.randint(0, 1))
        self.frames.append((frame, ("keepalive", end, self.place is None)))

    def inner(self, xid):
        """Sometimes a message inside a transaction that changes no rows."""
        rng = self.rng
        while rng.random() < 0.04:
            kind = rng.random()
            if kind < 0.3:
                self.data(
                    wire.origin(self.values.number(64), self.values.unicode(3).replace(b"\0", b""))
                )
            elif kind < 0.6:
                self.data(
                    wire.item(b"Y", wire.type_rest(self.values.number(32), b"public", b"mood"), xid)
                )
            else:
                self.message(xid)

    def message(self, xid=None):
        content = self.rng.randbytes(self.rng.choice((0, 2, 40)))
        rest = wire.message_rest(self.rng.randint(0, 1), self.values.number(64), b"prefix", content)
        self.data(wire.item(b"M", rest, xid))

    # what a transaction sends

    def describe(self, definition, label, out, noted=True):
        out.append((label, b"R", definition.rest))
        if noted:
            self.described[definition.oid] = definition.rest

    def run(self, parts, label, out, streamed):
        """Appends the labelled items and aborts of some parts: (subxid, letter, rest) and (None,
        subxid, None)."""
        rng = self.rng
        for part in parts:
            if rng.random() < 0.03:
                oid = rng.choice(self.oids)
                self.describe(self.values.definition(oid), label, out)
            if part[0] == "change":
                for definition in part[1].definitions:
                    if self.described.get(definition.oid) != definition.rest or rng.random() < 0.08:
                        self.describe(definition, label, out)
                out.append((label, part[1].letter, part[1].rest()))
            elif part[0] == "kept":
                self.run(part[2], part[1], out, streamed)
            elif streamed:
                self.gone(part[1], out)
        if rng.random() < 0.03:
            self.describe(self.values.definition(rng.choice(self.oids)), label, out)

    def gone(self, xids, out):
        """A rolled-back part: any items under its subxids, and an abort of each after its last
        item."""
        rng = self.rng
        unfinished = set()
        for _ in range(rng.choice((0, 1, 2, 3, 6))):
            label = rng.choice(xids)
            unfinished.add(label)
            self.any_item(label, out)
            if rng.random() < 0.2:
                label = rng.choice(xids)
                unfinished.discard(label)
                out.append((None, label, None))
        last = list(unfinished)
        rng.shuffle(last)
        while rng.random() < 0.3:
            last.insert(rng.randint(0, len(last)), rng.choice(xids))
        out += ((None, label, None) for label in last)

    def any_item(self, label, out):
        rng, values = self.rng, self.values
        oid = rng.choice(self.oids) if rng.random() < 0.9 else values.number(32)
        luck = rng.random()
        definition = values.definition(oid)
        row = [values.cell() for _ in definition.columns]
        if luck < 0.35:
            self.describe(definition, label, out, False)
        elif luck < 0.6:
            out.append((label, b"I", wire.Change(b"I", [definition], new=row).rest()))
        elif luck < 0.75:
            out.append(
                (
                    label,
                    b"U",
                    wire.Change(
                        b"U", [definition], rng.choice((None, b"K", b"O")), row, row
                    ).rest(),
                )
            )
        elif luck < 0.9:
            out.append(
                (label, b"D", wire.Change(b"D", [definition], rng.choice((b"K", b"O")), row).rest())
            )
        else:
            out.append((label, b"T", wire.Change(b"T", [definition] * rng.randint(0, 2)).rest()))

    def units(self, labelled):
        """Cuts labelled items and aborts into blocks and aborts."""
        rng = self.rng
        units = [[]] if rng.random() < 0.1 else []
        block = None
        keep_together = rng.choice((0.5, 0.8, 0.97, 1.0))
        for entry in labelled:
            if entry[0] is None:
                if not units:
                    units.append([])
                units.append(entry[1])
                block = None
            else:
                if block is None or rng.random() > keep_together:
                    block = []
                    units.append(block)
                block.append(entry)
        if not units or rng.random() < 0.05:
            units.append([])
        return units

    # the order of a session

    def make(self, last):
        """Makes the frames: commits up to the one with the index `last`, and parts of later
        ones."""
        rng = self.rng
        self.queue = [index for index in self.sent if index <= last]
        later = [index for index in self.sent if index > last]
        streamed = rng.choice((0.0, 0.5, 0.9)) if self.version == 2 else 0.0
        self.plans = {}
        for index in self.queue + (later if streamed else []):
            transaction = self.history[index]
            labelled = []
            as_blocks = rng.random() < streamed or index > last
            self.run(transaction.parts, transaction.xid, labelled, as_blocks)
            self.plans[index] = (self.units(labelled), True) if as_blocks else (labelled, False)
        self.ahead = self.queue + (later if streamed else [])
        eager = rng.choice((0.0, 0.2, 0.6))
        if rng.random() < 0.2:
            self.keepalive()
        while self.queue:
            self.noise()
            if rng.random() < eager and self.run_ahead():
                continue
            self.go_on(self.queue[0])
        while rng.random() < eager and self.run_ahead():
            self.noise()
        self.noise()
        return self.frames

    def noise(self):
        """Things that may come between transactions and blocks."""
        rng = self.rng
        luck = rng.random()
        if luck < 0.03:
            self.message()
        elif luck < 0.08 and self.version == 2:
            xid = rng.choice((rng.randint(690, 760), rng.getrandbits(32)))
            if xid not in self.open:
                self.data(wire.stream_abort(xid, rng.choice((xid, 700))))
        elif luck < 0.12 and self.version == 2:
            self.ghost()
        elif luck < 0.16:
            self.keepalive()

    def ghost(self):
        """A transaction that isn't of the history, and is aborted."""
        rng = self.rng
        xid = (
            rng.choice(self.history).xid
            if self.history and rng.random() < 0.7
            else rng.getrandbits(32)
        )
        if xid in self.open:
            return
        labelled = []
        for _ in range(rng.choice((0, 1, 3, 6))):
            self.any_item(rng.choice((xid, xid, 700)), labelled)
        for unit in self.units(labelled):
            self.block(xid, unit)
        self.open.discard(xid)
        self.data(wire.stream_abort(xid, xid))

    def block(self, xid, entries):
        self.place = "block"
        self.data(wire.stream_start(xid, int(xid not in self.open)))
        self.open.add(xid)
        for label, letter, rest in entries:
            self.inner(xid)
            self.data(wire.item(letter, rest, label))
        self.inner(xid)
        self.place = None
        self.data(wire.item(b"E", b""))

    def unit_of(self, index):
        """Sends the next block or abort of a streamed transaction; False where there is none
        left."""
        units, _ = self.plans[index]
        if not units:
            return False
        unit = units.pop(0)
        xid = self.history[index].xid
        if isinstance(unit, list):
            self.block(xid, unit)
        else:
            self.data(wire.stream_abort(xid, unit))
        return True

    def run_ahead(self):
        """Sends a block or abort of a transaction that commits later, or never in this session."""
        if not self.ahead:
            return False
        index = self.rng.choice(self.ahead)
        transaction = self.history[index]
        units, as_blocks = self.plans[index]
        if not as_blocks or not units:
            return False
        if self.owner.get(transaction.xid) != index:
            before = self.ahead[: self.ahead.index(index)]
            if transaction.xid in self.open or any(
                self.history[other].xid == transaction.xid for other in before
            ):
                return False
            self.owner[transaction.xid] = index
        return self.unit_of(index)

    def go_on(self, index):
        """Goes on with the transaction that commits next."""
        transaction = self.history[index]
        plan, as_blocks = self.plans[index]
        time = self.time_of(index)
        if not as_blocks:
            self.place = "pair"
            self.data(wire.begin(transaction.lsn, time, transaction.xid))
            for _, letter, rest in plan:
                self.inner(None)
                self.data(wire.item(letter, rest))
            self.inner(None)
            self.complete(index, wire.commit(transaction.lsn, transaction.end, time))
        else:
            self.owner[transaction.xid] = index
            if not self.unit_of(index):
                self.open.discard(transaction.xid)
                del self.owner[transaction.xid]
                self.complete(
                    index,
                    wire.stream_commit(transaction.xid, transaction.lsn, transaction.end, time),
                )

    def time_of(self, index):
        """When a transaction was committed. What a subscriber does is the same whenever it was."""
        return self.values.signed(64)

    def complete(self, index, body):
        self.place = None
        self.waiting = [other for other in self.waiting if other > index]
        self.queue.pop(0)
        self.ahead.remove(index)
        self.data(body, ("commit", index))


class Delivery:
    """Some sessions of a history, as bytes, and what a subscriber makes of them."""

    def __init__(self, rng, values, history, oids, version, sessions=None):
        self.rng, self.history, self.version = rng, history, version
        self.position = self.confirmed = 0
        self.fault = None
        self.stopped_by = None
        self.sessions = []
        self.frames = []
        count = sessions or rng.choice((1, 1, 1, 2, 2, 3, 5))
        for number in range(count):
            self.session(values, oids, number == count - 1)

    def session(self, values, oids, is_last):
        rng, history = self.rng, self.history
        ends = [transaction.end for transaction in history if transaction.end <= self.confirmed]
        start = rng.choice(
            [self.confirmed, self.confirmed, 0, rng.randint(0, self.confirmed)] + ends[-3:]
        )
        session = Session(rng, values, history, start, self.version, oids)
        last = (
            len(history) - 1
            if rng.random() < (0.8 if is_last else 0.4)
            else rng.randint(-1, len(history))
        )
        frames = session.make(last)
        whole, content = self.cut(frames)
        self.sessions.append(content)
        self.frames.append(frames[:whole])
        self.handle(frames[:whole])
        if whole == len(frames) and rng.random() < 0.15:
            self.close(is_last)

    def cut(self, frames):
        """Cuts a session at any byte, or not at all: the number of whole frames and the bytes."""
        rng = self.rng
        content = b"".join(frame for frame, _ in frames)
        if rng.random() < 0.55 or not content:
            return len(frames), content
        at = rng.randint(0, len(content))
        if rng.random() < 0.3:
            whole = rng.randint(0, len(frames))
            at = sum(len(frame) for frame, _ in frames[:whole]) + rng.choice((0, 0, 1, 2, 4, 5))
            at = min(at, len(content))
        reached = whole = 0
        while whole < len(frames) and reached + len(frames[whole][0]) <= at:
            reached += len(frames[whole][0])
            whole += 1
        return whole, content[:at]

    def close(self, is_last):
        """After all frames: CopyDone, and in the last session sometimes something foreign."""
        rng = self.rng
        luck = rng.random()
        if luck < 0.6:
            self.sessions[-1] += wire.COPY_DONE
        if is_last and self.fault is None and luck > 0.3:
            foreign = rng.choice((b"C\0\0\0\x0aDONE\0\0", b"E", b"d", b"c\0\0\0\x04", b"\0"))
            if luck < 0.6:
                self.sessions[-1] += foreign
                self.fault = "wire 4 AfterDone"
            elif foreign[:1] not in b"dc":
                self.sessions[-1] += foreign
                self.fault = f"wire 1 UnknownFrame {foreign[0]}"

    def handle(self, frames):
        """What the subscriber makes of whole frames, up to the first fault."""
        for _, effect in frames:
            if self.fault or effect is None:
                continue
            if effect[0] == "keepalive":
                if effect[2]:
                    self.confirmed = max(self.confirmed, effect[1])
                continue
            transaction = self.history[effect[1]]
            if transaction.end > self.position:
                if transaction.bad:
                    self.stopped_by = transaction
                    self.fault = "?"
                else:
                    self.position = transaction.end
                    self.confirmed = max(self.confirmed, self.position)

    def rows(self):
        """The rows at the position, and with a store fault its text."""
        tables = {}
        for transaction in self.history:
            if transaction.end <= self.position and not transaction.bad:
                for change in transaction.changes:
                    model.apply_change(tables, change)
        if self.stopped_by:
            trial = model.copied(tables)
            try:
                for change in self.stopped_by.changes:
                    model.apply_change(trial, change)
                raise AssertionError("a transaction was made bad and is not")
            except model.StoreFault as fault:
                self.fault = fault.text()
        return tables
