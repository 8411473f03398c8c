"""What `show` prints of any bytes: a line for each frame, up to the first fault of frames, messages
or their order."""

import struct

from .reader import Reader, decode
from .tables import cell_value, compact
from .wire import UNSENT, lsn_text

NAMES = {
    b"B": "Begin",
    b"C": "Commit",
    b"O": "Origin",
    b"R": "Relation",
    b"Y": "Type",
    b"I": "Insert",
    b"U": "Update",
    b"D": "Delete",
    b"T": "Truncate",
    b"M": "Message",
    b"S": "StreamStart",
    b"E": "StreamStop",
    b"c": "StreamCommit",
    b"A": "StreamAbort",
}


def cells_shown(cells):
    return [{"unchanged": True} if cell == UNSENT else cell_value(cell) for cell in cells]


def change_shown(change):
    """The fields of a change after its xid."""
    if change.letter == b"T":
        return [change.options, change.definitions]
    shown = [change.definitions[0]]
    if change.letter != b"I":
        shown.append(
            [change.old_kind.decode(), cells_shown(change.old)] if change.old_kind else None
        )
    if change.letter != b"D":
        shown.append(cells_shown(change.new))
    return shown


def fields_shown(letter, fields):
    if letter == b"B":
        return [lsn_text(fields[0]), *fields[1:]]
    if letter in b"Cc":
        xid, lsn, end, time = fields
        return ([] if letter == b"C" else [xid]) + [lsn_text(lsn), lsn_text(end), time]
    if letter == b"O":
        return [lsn_text(fields[0]), fields[1].decode()]
    if letter == b"R":
        it = fields[1]
        columns = [
            [column.flag, column.name.decode(), column.type_oid, column.modifier]
            for column in it.columns
        ]
        return [
            fields[0],
            it.oid,
            it.namespace.decode(),
            it.name.decode(),
            it.letter.decode(),
            columns,
        ]
    if letter == b"Y":
        return [*fields[:2], fields[2].decode(), fields[3].decode()]
    if letter == b"M":
        return [*fields[:2], lsn_text(fields[2]), fields[3].decode(), {"hex": fields[4].hex()}]
    if letter in b"IUDT":
        return [fields[0], *change_shown(fields[1])]
    return list(fields)


class Shown(Reader):
    """Stands on frames, messages and their order alone; what is held and stored doesn't matter."""

    def __init__(self, version):
        self.lines = None
        super().__init__(version)

    def disconnect(self):
        super().disconnect()
        # the first session isn't after a disconnection
        self.lines = [] if self.lines is None else self.lines
        self.started = getattr(self, "started", -1) + 1
        if self.started > 1:
            self.lines.append("--")

    def done(self):
        self.lines.append(compact(["done"]))

    def payload(self, payload):
        self.head = (
            [lsn_text(it) for it in struct.unpack(">QQ", payload[1:17])]
            if len(payload) >= 25
            else None
        )
        self.clock = struct.unpack(">q", payload[17:25])[0] if self.head else None
        super().payload(payload)

    def keepalive(self, end, clock, reply):
        self.lines.append(compact(["keepalive", lsn_text(end), clock, reply]))

    def message(self, content):
        letter, fields = decode(content, self.place == "block")
        self.step(letter, fields, len(content))
        self.lines.append(
            compact(
                ["data", *self.head, self.clock, [NAMES[letter], *fields_shown(letter, fields)]]
            )
        )

    def hold(self, label, it, cost):
        pass

    def commit(self, xid, end):
        del self.spools[xid]

    def text(self):
        return "".join(line + "\n" for line in self.lines).encode()
