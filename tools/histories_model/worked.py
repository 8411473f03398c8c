"""Worked sessions, small enough that every byte of them can be cut off or damaged, and the messages
that they are made of."""

from . import wire
from .wire import NULL, UNSENT, Change, Column, Definition, text

ID, V, W = Column(1, b"id", 23, -1), Column(0, b"v", 25, -1), Column(0, b"w", 25, -1)
T = Definition(16384, b"public", b"t", b"d", [ID, V])
WIDER = Definition(16384, b"public", b"t", b"d", [ID, V, W])
BY_FULL_ROW = Definition(16386, b"public", b"f", b"f", [Column(1, b"v", 25, -1)])
BY_NOTHING = Definition(16387, b"public", b"n", b"n", [V])


def frame(body):
    """The frame of a message, in XLogData from 0/0 to 0/0."""
    return wire.xlog_data(0, 0, 0, body)


def frames(*bodies):
    return b"".join(map(frame, bodies))


def describe(definition, xid=None):
    return wire.item(b"R", definition.rest, xid)


def changed(change, xid=None):
    return wire.item(change.letter, change.rest(), xid)


def insert(cells, xid=None, definition=T):
    return changed(Change(b"I", [definition], new=[text(cell.encode()) for cell in cells]), xid)


def update(cells, xid=None):
    return changed(Change(b"U", [T], new=[text(cell.encode()) for cell in cells]), xid)


def delete(key, xid=None):
    return changed(Change(b"D", [T], b"K", [text(key.encode()), NULL]), xid)


def begin(lsn, xid):
    return wire.begin(lsn, 0, xid)


def commit(lsn, end):
    return wire.commit(lsn, end, 0)


def stream_commit(xid, lsn, end):
    return wire.stream_commit(xid, lsn, end, 0)


STOP = b"E"

# a transaction that describes a table and inserts a row
ONE = frames(begin(0x100, 10), describe(T), insert("1a"), commit(0x100, 0x130))

# two transactions in blocks that alternate
ALTERNATING = frames(
    wire.stream_start(10, 1),
    describe(T, 10),
    update("1l", 10),
    STOP,
    wire.stream_start(11, 1),
    describe(T, 11),
    insert("1e", 11),
    STOP,
    wire.stream_start(10, 0),
    insert("2m", 10),
    STOP,
    stream_commit(11, 0x300, 0x330),
    stream_commit(10, 0x400, 0x430),
)

# the same two, with subtransactions that are rolled back
ROLLED_BACK = frames(
    wire.stream_start(10, 1),
    describe(T, 10),
    update("1l", 10),
    insert("8x", 12),
    STOP,
    wire.stream_start(11, 1),
    describe(T, 11),
    insert("9y", 13),
    STOP,
    wire.stream_abort(10, 12),
    wire.stream_abort(11, 13),
    wire.stream_start(11, 0),
    insert("1e", 11),
    STOP,
    wire.stream_start(10, 0),
    insert("2m", 10),
    delete("1", 14),
    STOP,
    wire.stream_abort(10, 14),
    stream_commit(11, 0x300, 0x330),
    stream_commit(10, 0x400, 0x430),
)

# changes that a commit is rejected for, each with the store's fault
BAD_CHANGES = (
    (
        "an Insert of a key that is stored",
        changed(Change(b"I", [T], new=[text(b"1"), text(b"z")])),
        "store 1 Clash",
    ),
    (
        "a Delete without an identity",
        changed(Change(b"D", [BY_NOTHING], b"K", [text(b"x")])),
        "store 2 NoIdentity",
    ),
    (
        "a Delete by a cell that wasn't sent",
        changed(Change(b"D", [T], b"K", [UNSENT, NULL])),
        "store 3 UnknownIdentity",
    ),
    (
        "an Insert of a cell that wasn't sent",
        changed(Change(b"I", [T], new=[text(b"9"), UNSENT])),
        "store 4 UnchangedInInsert",
    ),
    ("an Insert of another width", changed(Change(b"I", [T], new=[text(b"9")])), "store 5 Width"),
)

INNER = (
    ("Origin", wire.origin(0x100, b"one")),
    ("Type", wire.item(b"Y", wire.type_rest(49152, b"public", b"mood"))),
    ("Relation", describe(T)),
    ("Insert", insert("2b")),
    ("Update", update("1l")),
    ("Delete", delete("1")),
    ("Truncate", changed(Change(b"T", [T]))),
)

START, AGAIN = wire.stream_start(10, 1), wire.stream_start(10, 0)
BEGIN, COMMIT = begin(0x200, 10), commit(0x200, 0x230)
STREAM_COMMIT, ABORT = stream_commit(10, 0x200, 0x230), wire.stream_abort(10, 10)

# messages out of order, of which the last one gives the fault: the version of the protocol, the
# messages, and the fault
OUT_OF_ORDER = tuple((2, (body,), "order 1 OutsideTransaction") for _, body in INNER) + (
    (2, (BEGIN, begin(0x300, 11)), "order 2 NestedBegin"),
    (2, (START, begin(0x300, 11)), "order 2 NestedBegin"),
    (2, (START, STOP, BEGIN), "order 2 NestedBegin"),
    (1, (COMMIT,), "order 3 CommitWithoutBegin"),
    (2, (BEGIN, COMMIT, COMMIT), "order 3 CommitWithoutBegin"),
    (1, (BEGIN, commit(0x201, 0x230)), "order 4 CommitLsnDiffers"),
    (2, (START, START), "order 5 NestedStart"),
    (2, (BEGIN, wire.stream_start(11, 1)), "order 5 NestedStart"),
    (2, (STOP,), "order 6 StopWithoutStart"),
    (2, (BEGIN, STOP), "order 6 StopWithoutStart"),
    (2, (START, STOP, STOP), "order 6 StopWithoutStart"),
    (2, (START, STOP, START), "order 7 FirstFlagOnOpen"),
    (2, (AGAIN,), "order 8 LaterFlagOnUnknown"),
    (2, (START, STOP, ABORT, AGAIN), "order 8 LaterFlagOnUnknown"),
    (2, (STREAM_COMMIT,), "order 9 CommitOfUnknown"),
    (2, (START, STOP, STREAM_COMMIT, STREAM_COMMIT), "order 9 CommitOfUnknown"),
    (1, (START,), "order 10 StreamInVersion1"),
    (1, (BEGIN, STOP), "order 10 StreamInVersion1"),
    (1, (STREAM_COMMIT,), "order 10 StreamInVersion1"),
    (1, (BEGIN, ABORT), "order 10 StreamInVersion1"),
    (2, (START, COMMIT), "order 11 CommitMisplaced"),
    (2, (START, STREAM_COMMIT), "order 11 CommitMisplaced"),
    (2, (BEGIN, STREAM_COMMIT), "order 11 CommitMisplaced"),
    (2, (START, ABORT), "order 12 AbortMisplaced"),
    (2, (BEGIN, wire.stream_abort(11, 11)), "order 12 AbortMisplaced"),
)


def field(code, value):
    return code + value + b"\0"


def typed(letter, content):
    """A message of the server that is no CopyData: its letter, a length that counts itself, and its
    content."""
    return letter + (len(content) + 4).to_bytes(4, "big") + content


STOPPED = (
    field(b"S", b"FATAL")
    + field(b"V", b"FATAL")
    + field(b"C", b"57P01")
    + field(b"M", b"terminating connection due to administrator command")
    + b"\0"
)
NOTICE = (
    field(b"S", b"NOTICE")
    + field(b"V", b"NOTICE")
    + field(b"C", b"00000")
    + field(b"M", b"a word of the server")
    + b"\0"
)

# what a server sends beside CopyData and CopyDone, each with the fault
FOREIGN = (
    ("an error response", typed(b"E", STOPPED), "wire 1 UnknownFrame 69"),
    ("a notice response", typed(b"N", NOTICE), "wire 1 UnknownFrame 78"),
    ("a parameter status", typed(b"S", b"TimeZone\0UTC\0"), "wire 1 UnknownFrame 83"),
    ("a command completion", typed(b"C", b"COPY 0\0"), "wire 1 UnknownFrame 67"),
    ("a server that is ready", typed(b"Z", b"I"), "wire 1 UnknownFrame 90"),
    (
        "a command completion after CopyDone",
        wire.COPY_DONE + typed(b"C", b"COPY 0\0"),
        "wire 4 AfterDone",
    ),
    ("an error response after CopyDone", wire.COPY_DONE + typed(b"E", STOPPED), "wire 4 AfterDone"),
    (
        "data after CopyDone",
        wire.COPY_DONE + frames(begin(0x200, 11), insert("2b"), commit(0x200, 0x230)),
        "wire 4 AfterDone",
    ),
    ("a second CopyDone", wire.COPY_DONE + wire.COPY_DONE, "wire 4 AfterDone"),
)
