"""Sweeps: each cut, each byte and each place of the worked sessions in turn, compared with the
model.

A sweep yields the name of each of its cases and the call that runs it.
"""

import struct
from functools import partial

from stores.text import PAGE_SIZES

from . import keeping, memory
from . import tables as model
from . import wire, worked, written
from .cases import check_store, compare, stop_line
from .program import MEMORY
from .reader import MAX_FRAME, Reader
from .worked import ONE

ONE_ROW = b'["public","t",["1","a"],1]\n'
RESTS = b"".join(b'["public","t",["%d","g"],1]\n' % key for key in (2, 3, 4, 5))
# the first length at which a stream has this position
REACHES = (
    ("a transaction", ONE, ((227, 0x130),)),
    ("alternating blocks", worked.ALTERNATING, ((571, 0x330), (631, 0x430))),
)


def ends(fault):
    """The exit status and the line of a fault, or of none."""
    return int(fault is not None), stop_line(fault)


def apply(what, program, words, file, read):
    """Runs `apply`, which has to print what the model read."""
    status, line = ends(read.fault)
    compare(
        what, program, ["apply", *words, file], status, model.dump(read.tables, read.position), line
    )


def text_of(*sessions):
    """A recording of sessions, each in one chunk."""
    return b"--\n".join(session.hex().encode() + b"\n" if session else b"" for session in sessions)


# each cut of a stream


def cut(stream, length, position, program):
    read = Reader(2).follow([stream[:length]])
    if read.position != position or read.fault:
        raise AssertionError(
            f"the model reaches {wire.lsn_text(read.position)}, fault {read.fault}"
        )
    apply("raw bytes", program, ["--raw"], program.file("cut.raw", stream[:length]), read)
    apply("a recording", program, [], program.file("cut.pgx", text_of(stream[:length])), read)
    twice = program.file("twice.pgx", text_of(stream[:length], stream))
    apply(
        "and all of it in a second session",
        program,
        [],
        twice,
        Reader(2).follow([stream[:length], stream]),
    )


def cut_and_kept(stream, length, program):
    """A run over the cut stream, and another over all of it, on one file."""
    store = program.path_of("copy.db")
    read = Reader(2).follow([stream[:length]])
    apply(
        "a store",
        program,
        ["--store", store, "--raw"],
        program.file("cut.raw", stream[:length]),
        read,
    )
    whole = read.restarted().follow([stream])
    check_store(program, store, read)
    apply(
        "the store's second run",
        program,
        ["--store", store, "--raw"],
        program.file("whole.raw", stream),
        whole,
    )
    check_store(program, store, whole)
    compare(
        "the store",
        program,
        ["dump", "--store", store],
        0,
        model.dump(whole.tables, whole.position),
        b"",
    )


def cuts():
    for name, stream, reaches in REACHES:
        for length in range(len(stream) + 1):
            position = max((at for least, at in reaches if length >= least), default=0)
            yield f"{name}, its first {length} bytes", partial(cut, stream, length, position)
            yield f"{name}, its first {length} bytes in a store", partial(
                cut_and_kept, stream, length
            )


# each byte set, and numbers put over each offset


def damaged(stream, offset, put, program):
    content = stream[:offset] + put + stream[offset + len(put) :]
    read = Reader(2).follow([content])
    apply("raw bytes", program, ["--raw"], program.file("damaged.raw", content), read)


def byte_values():
    stream = worked.ROLLED_BACK
    for offset in range(len(stream)):
        for value in (0x00, 0xFF):
            yield f"byte {offset} set to {value:02x}", partial(
                damaged, stream, offset, bytes([value])
            )


def great_numbers():
    """Lengths and counts that claim gigabytes, at each offset at which such a number could be."""
    stream = worked.ROLLED_BACK
    for offset in range(len(stream)):
        yield f"2147483647 at {offset}", partial(
            damaged, stream, offset, struct.pack(">I", 0x7FFFFFFF)
        )
        yield f"1600 at {offset}", partial(damaged, stream, offset, struct.pack(">H", 1600))


# messages out of order, bad changes, foreign frames


def out_of_order(version, bodies, fault, program):
    content = ONE + worked.frames(*bodies)
    words = ["--proto", str(version)]
    read = Reader(version).follow([content])
    if read.fault != fault or Reader(version).follow([ONE + worked.frames(*bodies[:-1])]).fault:
        raise AssertionError(f"the model's fault is {read.fault}")
    for what, more in (
        ("the last message", b""),
        ("another fault after it", bytes.fromhex("6400000003")),
    ):
        apply(
            f"{what}, a recording",
            program,
            words,
            program.file("order.pgx", text_of(content + more)),
            read,
        )
        apply(
            f"{what}, raw bytes",
            program,
            ["--raw", *words],
            program.file("order.raw", content + more),
            read,
        )


def orders():
    for number, (version, bodies, fault) in enumerate(worked.OUT_OF_ORDER):
        yield f"{fault}, list {number}", partial(out_of_order, version, bodies, fault)


def transaction_of(changes, version, in_blocks):
    """A transaction of these changes, in a pair, or in a block for each change."""
    first = [worked.describe(worked.T), worked.describe(worked.BY_NOTHING)]
    if not in_blocks:
        return worked.frames(worked.begin(0x200, 11), *first, *changes, worked.commit(0x200, 0x230))
    labelled = [body[:1] + struct.pack(">I", 11) + body[1:] for body in (*first, *changes)]
    bodies = []
    for number, body in enumerate(labelled):
        bodies += [wire.stream_start(11, int(number == 0)), body, worked.STOP]
    return worked.frames(*bodies, worked.stream_commit(11, 0x200, 0x230))


def bad_change(bad, place, fault, version, in_blocks, program):
    """A transaction with one bad change is rejected whole; without it, it is applied by the next
    run."""
    store, before = program.path_of("copy.db"), Reader(version).follow([ONE])
    words = ["--store", store, "--proto", str(version)]
    good = [worked.insert(f"{key}g") for key in (2, 3, 4, 5)]
    spoilt = good[: place - 1] + [bad] + good[place - 1 :]
    status, line = ends(fault)
    file = program.file("bad.pgx", text_of(ONE + transaction_of(spoilt, version, in_blocks)))
    compare(
        "the bad change",
        program,
        ["apply", *words, file],
        status,
        ONE_ROW + b"position 0/130\n",
        line,
    )
    check_store(program, store, before)
    compare(
        "without a store",
        program,
        ["apply", *words[2:], file],
        status,
        ONE_ROW + b"position 0/130\n",
        line,
    )
    session = transaction_of(good, version, in_blocks)
    file = program.file("good.pgx", text_of(session))
    compare(
        "without the bad change",
        program,
        ["apply", *words, file],
        0,
        ONE_ROW + RESTS + b"position 0/230\n",
        b"",
    )
    check_store(program, store, before.restarted().follow([session]))


def bad_changes():
    for name, bad, fault in worked.BAD_CHANGES:
        for place in range(1, 6):
            for version, in_blocks in ((1, False), (2, False), (2, True)):
                how = "in blocks" if in_blocks else f"in a pair of version {version}"
                yield f"{name}, as change {place} {how}", partial(
                    bad_change, bad, place, fault, version, in_blocks
                )


def foreign(content, fault, program):
    """What isn't of the copy stream ends its session; what was committed stays, and the next run
    goes on."""
    store = program.path_of("copy.db")
    words = ["--store", store]
    status, line = ends(fault)
    file = program.file("foreign.raw", ONE + content)
    compare(
        "a foreign frame",
        program,
        ["apply", *words, "--raw", file],
        status,
        ONE_ROW + b"position 0/130\n",
        line,
    )
    read = Reader(2).follow([ONE])
    check_store(program, store, read)
    for length in range(1, len(content)):
        file = program.file("front.pgx", text_of(ONE + content[:length]))
        apply(
            f"its first {length} bytes",
            program,
            [],
            file,
            Reader(2).follow([ONE + content[:length]]),
        )
    session = ONE + transaction_of([worked.insert("2g")], 2, False)
    file = program.file("next.pgx", text_of(session))
    compare(
        "the next run",
        program,
        ["apply", *words, file],
        0,
        ONE_ROW + RESTS[:27] + b"position 0/230\n",
        b"",
    )
    check_store(program, store, read.restarted().follow([session]))


def foreign_frames():
    for name, content, fault in worked.FOREIGN:
        yield name, partial(foreign, content, fault)


def long_row(over, program):
    """A row whose frame is as long as it may be, or longer."""
    cell = wire.text(b"x" * (MAX_FRAME - 25 - len(worked.insert(["1", ""], None, worked.T)) + over))
    row = worked.changed(wire.Change(b"I", [worked.T], new=[wire.text(b"2"), cell]))
    content = ONE + worked.frames(worked.begin(0x200, 11), row, worked.commit(0x200, 0x230))
    read = Reader(2).follow([content])
    if (read.fault == "wire 3 TooLarge") != (over > 0):
        raise AssertionError(f"the model's fault is {read.fault}")
    apply("raw bytes", program, ["--raw"], program.file("long.raw", content), read)


def long_rows():
    for over in (0, 1, 1000000):
        yield f"a row of 16 MiB and {over} bytes", partial(long_row, over)


# many of one thing: what a stream costs must grow with its length alone

MANY = 5000


def in_pair(*bodies):
    return worked.frames(worked.begin(0x100, 10), *bodies, worked.commit(0x100, 0x130))


def many_open(xids):
    """Transactions that stay open."""
    return b"".join(worked.frames(wire.stream_start(xid, 1), worked.STOP) for xid in xids)


def many_dropped():
    """Transactions with an item each, all open at once, and all aborted."""
    opened = [
        worked.frames(wire.stream_start(xid, 1), worked.insert("1a", xid), worked.STOP)
        for xid in range(MANY)
    ]
    return b"".join(opened) + worked.frames(*(wire.stream_abort(xid, xid) for xid in range(MANY)))


def many_subtransactions(order):
    """A transaction with an item in each of many subtransactions, which are aborted in some
    order."""
    first = [wire.stream_start(5, 1), worked.describe(worked.T, 5)]
    items = [worked.insert("1a", 100 + number) for number in range(MANY)]
    aborts = [wire.stream_abort(5, 100 + number) for number in order]
    return worked.frames(
        *first, *items, worked.STOP, *aborts, worked.stream_commit(5, 0x100, 0x130)
    )


def many_blocks():
    bodies = [wire.stream_start(5, 1), worked.describe(worked.T, 5), worked.STOP]
    for number in range(MANY):
        bodies += [wire.stream_start(5, 0), worked.insert([str(number), "a"], 5), worked.STOP]
    return worked.frames(*bodies, worked.stream_commit(5, 0x100, 0x130))


def many_commits():
    bodies = []
    for number in range(1, MANY):
        lsn = 16 * number
        bodies += [
            worked.begin(lsn, 5),
            worked.describe(worked.T),
            worked.insert([str(number), "a"]),
            worked.commit(lsn, lsn + 8),
        ]
    return worked.frames(*bodies)


def many_copies():
    return in_pair(
        worked.describe(worked.BY_FULL_ROW), *[worked.insert("x", None, worked.BY_FULL_ROW)] * MANY
    )


def many_truncated():
    """A Truncate that names one relation many times, and many Truncates."""
    once = worked.changed(wire.Change(b"T", [worked.T]))
    return in_pair(
        worked.describe(worked.T),
        worked.changed(wire.Change(b"T", [worked.T] * MANY)),
        *[once] * MANY,
    )


def many_relations():
    bodies = []
    for oid in range(MANY):
        definition = wire.Definition(oid, b"public", b"t", b"d", [worked.ID])
        bodies += [worked.describe(definition), worked.insert("1", None, definition)]
    return in_pair(*bodies)


def many_deletes():
    inserts = [worked.insert([str(number), "a"]) for number in range(MANY)]
    return in_pair(
        worked.describe(worked.T), *inserts, *(worked.delete(str(number)) for number in range(MANY))
    )


def many_shapes():
    """A table whose shape changes with each change. Its rows are carried over each time, so this
    grows with the rows too."""
    bodies = []
    for number in range(50):
        for definition in (worked.T, worked.WIDER):
            cells = [f"{number}.{definition.width}", "a", "b"][: definition.width]
            bodies += [worked.describe(definition), worked.insert(cells, None, definition)]
    return in_pair(*bodies)


def many_columns():
    """A table of 1600 columns of which all names change."""
    first, second = (
        wire.Definition(
            7,
            b"public",
            b"t",
            b"d",
            [worked.ID]
            + [wire.Column(0, b"%s%d" % (name, place), 25, -1) for place in range(1599)],
        )
        for name in (b"a", b"b")
    )
    inserts = [worked.insert([str(number)] + [""] * 1599, None, first) for number in range(20)]
    return in_pair(
        worked.describe(first),
        *inserts,
        worked.describe(second),
        worked.insert(["x"] * 1600, None, second),
    )


def many_keepalives():
    return wire.keepalive(5, 0, 1) * MANY


def sized(made, program):
    content = made()
    apply(
        "raw bytes",
        program,
        ["--raw"],
        program.file("many.raw", content),
        Reader(2).follow([content]),
    )


def sizes():
    yield "open transactions", partial(sized, partial(many_open, range(MANY)))
    yield "open transactions, from the last xid on", partial(
        sized, partial(many_open, range(MANY, 0, -1))
    )
    yield "subtransactions, aborted from the last on", partial(
        sized, partial(many_subtransactions, range(MANY - 1, -1, -1))
    )
    yield "subtransactions, aborted from the first on", partial(
        sized, partial(many_subtransactions, range(MANY))
    )
    yield "aborts of unknown subtransactions", partial(
        sized, partial(many_subtransactions, range(MANY + 1, 2 * MANY))
    )
    for made in (
        many_dropped,
        many_blocks,
        many_commits,
        many_copies,
        many_truncated,
        many_relations,
        many_deletes,
        many_shapes,
        many_columns,
        many_keepalives,
    ):
        yield made.__name__.replace("_", " "), partial(sized, made)


# how many pages of a store stay in memory


def kept_within(pages, program):
    """A store of which so many pages stay in memory, and afterwards more than there is memory for:
    then nothing is changed."""
    store, words, file = (
        program.path_of("copy.db"),
        ["--cache", str(pages)],
        program.file("one.raw", ONE),
    )
    read = Reader(2).follow([ONE])
    apply("a store", program, ["--store", store, *words, "--raw"], file, read)
    check_store(program, store, read)
    rows = model.dump(read.tables, read.position)
    compare("the store", program, ["dump", "--store", store, *words], 0, rows, b"")
    # (of 1,024 bytes each, which are all that a run may have)
    words = ["--store", store, "--cache", str(MEMORY // 1024)]
    for what, status in (
        (["apply", *words, "--raw", file], 1),
        (["dump", *words], 1),
        (["follow", *words], 14),
    ):
        compare("too many pages", program, what, status, b"", b"pgsub: memory\n")
    compare("the store afterwards", program, ["dump", "--store", store], 0, rows, b"")
    check_store(program, store, read)


def caches():
    for pages in (100, 20000):
        yield f"{pages} pages", partial(kept_within, pages)


# files with pages of each size


def page_sizes():
    for size in PAGE_SIZES:
        for number in range(4):
            yield f"{size} bytes, history {number}", partial(written.of_pages, size, number)


SWEEPS = {
    "cuts": cuts,
    "bytes": byte_values,
    "numbers": great_numbers,
    "orders": orders,
    "changes": bad_changes,
    "foreign": foreign_frames,
    "rows": long_rows,
    "sizes": sizes,
    "memory": memory.memory,
    "caches": caches,
    "pages": page_sizes,
    "feeds": keeping.recordings,
}
