"""What many messages of one kind take of memory: no more than their bytes and the limits allow.

The program runs under a limit on its address space. Each case says how much of that a byte of its
stream may take, beside what a run takes that hears of nothing.
"""

import struct
from functools import partial

from . import wire, worked
from .cases import check_store, compare_followed
from .followed import Followed
from .reader import Reader
from .worked import T, frames

# of a run over an empty stream, with the pages of its store, and some to spare
STANDING = 8 << 20
CACHE = "100"
MANY = 100000
# OIDs in one Truncate
OIDS = 500000
# of an OID: its four bytes in the frame, and sixteen more
OID = 4 + 16
XID = 10


def in_pair(bodies):
    return frames(worked.begin(0x100, XID), *bodies, worked.commit(0x100, 0x130))


def in_blocks(bodies):
    """The same as a transaction that is streamed, for bodies with its xid."""
    return frames(
        wire.stream_start(XID, 1), *bodies, worked.STOP, worked.stream_commit(XID, 0x100, 0x130)
    )


def truncate(oids, xid):
    """A Truncate of these relations, which are given by their OIDs in bytes."""
    return wire.item(b"T", struct.pack(">IB", len(oids) // 4, 0) + oids, xid)


def described(number, xid):
    for place in range(number):
        name = b"t%d" % place
        definition = wire.Definition(20000 + place, b"public", name, b"d", [worked.ID])
        yield worked.describe(definition, xid)


def truncating(number, streamed):
    """One Truncate that names so many relations over and over."""
    xid = XID if streamed else None
    oids = struct.pack(f">{number}I", *range(20000, 20000 + number)) * (OIDS // number)
    bodies = [*described(number, xid), truncate(oids, xid)]
    return in_blocks(bodies) if streamed else in_pair(bodies)


def unknown(streamed):
    """One Truncate of relations that nothing has described."""
    oids = struct.pack(f">{OIDS}I", *range(OIDS))
    return in_blocks([truncate(oids, XID)]) if streamed else in_pair([truncate(oids, None)])


def many(body):
    return in_pair([worked.describe(T), *[body] * MANY])


def inserts():
    return in_pair([worked.describe(T), *(worked.insert([str(it), "a"]) for it in range(MANY))])


def origins():
    """Transactions of another server."""
    bodies = []
    for lsn in range(16, 16 * MANY, 16):
        bodies += worked.begin(lsn, XID), wire.origin(lsn, b"one"), worked.commit(lsn, lsn + 8)
    return frames(*bodies)


def opened():
    """Transactions of which each stays open without an item."""
    return b"".join(frames(wire.stream_start(xid, 1), worked.STOP) for xid in range(MANY))


def aborted():
    """Transactions of which each is rolled back before the next."""
    return b"".join(
        frames(wire.stream_start(xid, 1), worked.STOP, wire.stream_abort(xid, xid))
        for xid in range(MANY)
    )


def subtransactions():
    """A transaction with a row of each of many subtransactions, which is rolled back."""
    rows = (worked.insert([str(number), "a"], 100 + number) for number in range(MANY))
    return frames(
        wire.stream_start(XID, 1),
        worked.describe(T, XID),
        *rows,
        worked.STOP,
        wire.stream_abort(XID, XID),
    )


# for each kind of message a stream of many, and how much of memory each of its bytes may take
MESSAGES = (
    ("Truncate", partial(many, worked.changed(wire.Change(b"T", [T]))), 4),
    ("Insert", inserts, 4),
    ("Update", partial(many, worked.update("1l")), 4),
    ("Delete", partial(many, worked.delete("1")), 4),
    ("Relation", partial(many, worked.describe(T)), 2),
    ("Type", partial(many, dict(worked.INNER)["Type"]), 0),
    ("Origin", origins, 0),
    ("Message", partial(many, wire.item(b"M", wire.message_rest(1, 5, b"a", b"b"))), 0),
    ("keepalive", lambda: wire.keepalive(5, 0, 1) * MANY, 1),
    ("Stream Start", opened, 6),
    ("Stream Abort", aborted, 0),
    ("subtransaction", subtransactions, 3),
)


def bounded(made, taken, program):
    """Follows a stream within its bound of memory, and holds what the model does."""
    content = made()
    store, file = program.path_of("copy.db"), program.file("many.raw", content)
    followed = Followed(Reader(2)).follow(content)
    words = ["--store", store, "--cache", CACHE]
    memory = STANDING + taken(content)
    compare_followed(f"within {memory} bytes", program, words, followed, file, memory)
    check_store(program, store, followed.reader)


def per_byte(factor):
    return lambda content: factor * len(content)


def per_oid(_content):
    return OID * OIDS


def memory():
    for streamed in (False, True):
        told = "streamed" if streamed else "in one pair"
        for number in (1, 1000):
            made = partial(truncating, number, streamed)
            yield f"a Truncate of {number} relations, {told}", partial(bounded, made, per_oid)
        made = partial(unknown, streamed)
        yield f"a Truncate of unknown relations, {told}", partial(bounded, made, per_oid)
    for name, made, factor in MESSAGES:
        yield f"many of {name}", partial(bounded, made, per_byte(factor))
