"""Cases: each is made from its own seed, run, and compared with the model."""

import random

from . import tables as model
from . import wire
from .damage import byte_damage, damaged_tail, frame_damage, frames_of
from .followed import Followed, exit_status, without_clocks
from .history import Maker
from .reader import MAX_BYTES, MAX_FRAME, Reader
from .recording import LONGEST, BadLine, damaged_text, recording, sessions_of
from .shown import Shown
from .stream import Delivery
from .wire import Change, Column, Definition, lsn_text

# more bytes than this aren't run
ENOUGH = 30000000
# how many bytes of open transactions stay in memory where others go on in a file
SPOOL_MEMORY = (0, 1, 40, 100, 300, 2000)


class Difference(Exception):
    """The program did something else than the model."""


def compare(what, program, words, status, out, err, given=None, memory=None):
    """Runs the program and compares what it does; with a given file on standard input, the clocks
    of statuses aside."""
    within = {} if memory is None else {"memory": memory}
    got = program.run(*words, given=given, **within) if given else program.run(*words)
    if given:
        got = got[0], without_clocks(got[1]), got[2]
    wanted = (status, out, err)
    if got != wanted:
        names = ("status", "standard output", "standard error")
        told = [
            f"{name}: {show(one)}\n   the model: {show(other)}"
            for name, one, other in zip(names, got, wanted)
            if one != other
        ]
        raise Difference(f"{what}: pgsub {' '.join(words)}\n   " + "\n   ".join(told))


def show(it):
    if isinstance(it, bytes):
        it = it.hex() if b"\0" in it else it.decode(errors="replace")
        return it if len(it) < 1500 else f"{it[:700]} .. {it[-700:]}"
    return str(it)


def stop_line(fault):
    return b"" if fault is None else f"pgsub: {fault}\n".encode()


def compare_followed(what, program, words, followed, file, memory=None):
    """Compares a `follow` over this file, within so much memory if that is given, with what the
    model has followed."""
    read = followed.reader
    line = followed.told + stop_line(read.fault)
    compare(
        what, program, ["follow", *words], exit_status(read), followed.written, line, file, memory
    )


def version_words(rng, version):
    if version == 1:
        return rng.choice((["--proto", "1"], ["--proto=1"]))
    return rng.choice(([], [], ["--proto", "2"]))


def delivery_of(rng, maker, history, version, sessions=None):
    delivery = Delivery(rng, maker.values, history, maker.oids, version, sessions)
    return delivery, model.dump(delivery.rows(), delivery.position)


def well_formed(case, program):
    """A random history and sessions of it."""
    rng = random.Random(case)
    maker = Maker(rng)
    history = maker.history()
    version = rng.choice((1, 2, 2))
    delivery, rows = delivery_of(rng, maker, history, version)
    if sum(map(len, delivery.sessions)) > ENOUGH:
        return
    words = version_words(rng, version)
    status, line = int(delivery.fault is not None), stop_line(delivery.fault)
    luck = rng.random()
    if luck < 0.15:
        stored(program, delivery.sessions, version, words, (status, rows, line))
        return
    if len(delivery.sessions) == 1 and luck < 0.5:
        file = program.file("session.raw", delivery.sessions[0])
        compare("raw bytes", program, ["apply", "--raw", *words, file], status, rows, line)
        return
    file = program.file("recording.pgx", recording(rng, delivery.sessions))
    compare("a recording", program, ["apply", *words, file], status, rows, line)
    watched(program, len(delivery.sessions), ["watch", *words, file])
    if luck > 0.85 and version == 2:
        resumed(program, delivery, file)
    elif luck > 0.82:
        shown(program, delivery.sessions, version, words, file)
    elif luck > 0.73:
        same(rng, program, maker, history, (delivery, file), words)


def watched(program, sessions, words):
    """No rule is found broken of sessions that a well-formed server sends, and all is watched."""
    status, out, err = program.run(*words)
    lines = out.decode().splitlines()
    wrong = [line for line in lines if " broken at " in line or " not watched from " in line]
    if (status, err, lines.count("session")) != (0, b"", sessions) or wrong:
        raise Difference(f"a watch: pgsub {' '.join(words)}\n   {show(out)} {show(err)}")


def resumed(program, read, file):
    """What `resume` prints: the position, and what may be confirmed."""
    out = f"position {lsn_text(read.position)}\nconfirmed {lsn_text(read.confirmed)}\n".encode()
    compare(
        "what may be confirmed",
        program,
        ["resume", file],
        int(read.fault is not None),
        out,
        stop_line(read.fault),
    )


def cache_words(number):
    """Asks each run over a file for another number of pages in memory."""
    return ([], ["--cache", "100"], ["--cache=4000"])[number % 3]


def spool_words(number, program):
    """Has open transactions of every second run go on in a file, so few bytes of them in memory."""
    if number % 2:
        return []
    memory = SPOOL_MEMORY[number // 2 % len(SPOOL_MEMORY)]
    return ["--spool", program.path_of("spool"), f"--spool-memory={memory}"]


def check_store(program, store, read):
    """Whether SQLite finds a store's file sound, and in it what the model has read."""
    told = program.store_findings(store, model.contents(read.tables, read.position))
    if told:
        raise Difference(f"the file {store}\n   " + "\n   ".join(told))


def stored(program, sessions, version, words, ends=None):
    """A run for each session over a store in a file, up to the first fault; the last one ends so,
    where that is known."""
    store = program.path_of("copy.db")
    read = Reader(version)
    for number, content in enumerate(sessions):
        read = read.restarted().follow([content])
        status, rows, line = (
            int(read.fault is not None),
            model.dump(read.tables, read.position),
            stop_line(read.fault),
        )
        if ends and (read.fault or number == len(sessions) - 1) and ends != (status, rows, line):
            raise AssertionError(f"two models differ: {(status, rows, line)} and {ends}")
        file = program.file(f"session.{number}.raw", content)
        compare(
            "a store in a file",
            program,
            ["apply", "--store", store, *cache_words(number), "--raw", *words, file],
            status,
            rows,
            line,
        )
        check_store(program, store, read)
        if read.fault:
            break
    words = ["dump", "--store", program.copied_alone(store)]
    compare(
        "what the file alone holds", program, words, 0, model.dump(read.tables, read.position), b""
    )


def shown(program, sessions, version, words, file):
    """The lines of `show`."""
    read = Shown(version).follow(sessions)
    compare(
        "messages",
        program,
        ["show", *words, file],
        int(read.fault is not None),
        read.text(),
        stop_line(read.fault),
    )


def same(rng, program, maker, history, left, words):
    """Two deliveries of one history lead to the same rows where their positions are equal."""
    version = left[0].version
    right, _ = delivery_of(rng, maker, history, version)
    text = recording(rng, right.sessions)
    file = program.file("right.pgx", text)
    sides = [left[0], right]
    out, line, status = b"", b"", 1
    faults = [(name, side.fault) for name, side in zip(("left", "right"), sides) if side.fault]
    if len(text) > LONGEST:
        line, status = stop_line("capture too long"), 3
    elif faults:
        line = stop_line(f"{faults[0][0]}: {faults[0][1]}")
    elif left[0].position == right.position:
        out, status = f"same {lsn_text(right.position)}\n".encode(), 0
    else:
        out, status = (
            f"positions {lsn_text(left[0].position)} {lsn_text(right.position)}\n".encode(),
            4,
        )
    compare("two deliveries", program, ["same", *words, left[1], file], status, out, line)


def damaged(case, program):
    """Sessions of a random history with damage, read by the model to the first fault.

    In half of the cases the damage comes after the last commit. Rows and position are then those of
    the history, too.
    """
    rng = random.Random(case)
    if rng.random() < 0.0005:
        at_a_limit(rng, program)
        return
    if rng.random() < 0.03:
        text_damaged(rng, program)
        return
    maker = Maker(rng)
    history = maker.history()
    version = rng.choice((1, 2, 2))
    delivery = Delivery(rng, maker.values, history, maker.oids, version)
    sessions, known = damage(rng, delivery)
    if sum(map(len, sessions)) > ENOUGH:
        return
    read = Reader(version if rng.random() < 0.97 else 3 - version)
    read.follow(sessions)
    rows = model.dump(read.tables, read.position)
    if known and read.version == version:
        expected = model.dump(delivery.rows(), delivery.position)
        if rows != expected:
            raise AssertionError(f"two models differ: {show(rows)} and {show(expected)}")
    status, line = int(read.fault is not None), stop_line(read.fault)
    words = version_words(rng, read.version)
    if rng.random() < 0.1:
        stored(program, sessions, read.version, words, (status, rows, line))
        return
    if len(sessions) == 1 and rng.random() < 0.6:
        file = program.file("session.raw", sessions[0])
        words = ["apply", "--raw", *words, file]
    else:
        file = program.file("recording.pgx", recording(rng, sessions))
        luck = rng.random()
        if luck < 0.1:
            shown(program, sessions, read.version, words, file)
        elif luck < 0.25 and read.version == 2:
            resumed(program, read, file)
        words = ["apply", *words, file]
    compare("damaged", program, words, status, rows, line)


def damage(rng, delivery):
    """Damaged sessions, and whether they lead to the rows and position that the delivery was then
    set to."""
    sessions = list(delivery.sessions)
    at = rng.randrange(len(sessions))
    frames = delivery.frames[at]
    if rng.random() < 0.5:
        before, rest = damaged_tail(rng, frames)
        delivery.position = delivery.confirmed = 0
        delivery.fault = delivery.stopped_by = None
        for earlier in delivery.frames[:at]:
            delivery.handle(earlier)
        delivery.handle(before)
        return sessions[:at] + [b"".join(frame for frame, _ in before) + rest], True
    if rng.random() < 0.5:
        sessions[at] = b"".join(frame_damage(rng, [frame for frame, _ in frames]))
    if rng.random() < 0.6:
        sessions[at] = byte_damage(rng, sessions[at])
    if rng.random() < 0.05:
        rng.shuffle(sessions)
    return sessions, False


def limit_words(rng, read):
    """Gives a reader limits that a history may pass, and returns the words that ask for them."""
    read.max_bytes, read.max_frame = rng.randint(0, 3000), rng.randint(40, 600)
    return ["--max-buffered", str(read.max_bytes), f"--max-frame={read.max_frame}"]


def followed(case, program):
    """A history that comes to `follow` on standard input: the statuses that it writes, and what its
    file then holds."""
    rng = random.Random(case)
    maker = Maker(rng)
    version = rng.choice((1, 2, 2))
    delivery = Delivery(rng, maker.values, maker.history(), maker.oids, version)
    if rng.random() < 0.3:
        sessions, _ = damage(rng, delivery)
    else:
        sessions = delivery.sessions
    whole = [
        b"".join(frame for frame, _ in frames) + wire.COPY_DONE for frames in delivery.frames[:-1]
    ]
    content = b"".join(whole) + sessions[-1]
    if len(content) > ENOUGH:
        return
    store, read = program.path_of("copy.db"), Reader(version)
    words = ["--store", store, *version_words(rng, version)]
    if rng.random() < 0.2:
        words += limit_words(rng, read)
    at = rng.randint(0, len(content)) if rng.random() < 0.3 else len(content)
    for number, part in enumerate(
        (content[:at], content[at:]) if at < len(content) else (content,)
    ):
        read = read.restarted()
        after = Followed(read).follow(part)
        file = program.file(f"input.{number}", part)
        more = [*cache_words(number), *spool_words(number + len(part), program)]
        compare_followed("following", program, [*words, *more], after, file)
        check_store(program, store, read)
    compare(
        "what the file holds",
        program,
        ["dump", "--store", store],
        0,
        model.dump(read.tables, read.position),
        b"",
    )


def recorded(paths, case, program):
    """A recording of a server, mostly of its first frames alone and damaged."""
    rng = random.Random(case)
    with open(rng.choice(paths), "rb") as file:
        sessions = [b"".join(chunks) for chunks in sessions_of(file.read())]
    at = rng.randrange(len(sessions))
    frames, rest = frames_of(sessions[at])
    if rng.random() < 0.9:
        frames, rest = frames[: rng.randint(1, 300)], b""
        sessions = sessions[: at + 1]
    luck = rng.random()
    if luck < 0.6:
        frames = frame_damage(rng, frames)
    content = b"".join(frames) + rest
    sessions[at] = byte_damage(rng, content) if 0.4 < luck < 0.9 else content
    version = rng.choice((1, 2, 2, 2))
    words = version_words(rng, version)
    read = Reader(version).follow(sessions)
    ends = (
        int(read.fault is not None),
        model.dump(read.tables, read.position),
        stop_line(read.fault),
    )
    if rng.random() < 0.2:
        stored(program, sessions, version, words, ends)
        return
    file = program.file("recording.pgx", recording(rng, sessions))
    compare("a damaged recording", program, ["apply", *words, file], *ends)
    if rng.random() < 0.2:
        shown(program, sessions, version, words, file)


def at_a_limit(rng, program):
    """Items of open transactions that cost as much as they may together, one byte less or one more;
    and a longest frame."""
    if rng.random() < 0.2:
        over = rng.randint(0, 1)
        file = program.file("recording.pgx", b"#" * (LONGEST + over))
        line = stop_line("capture too long") if over else b""
        compare(
            "a long recording",
            program,
            ["apply", file],
            3 * over,
            b"" if over else b"position 0/0\n",
            line,
        )
        return
    version = rng.choice((1, 2))
    definition = Definition(16386, b"public", b"f", b"f", [Column(1, b"v", 25, -1)])
    empty = Change(b"I", [definition], new=[wire.binary(b"")]).rest()
    label = None if version == 1 else rng.choice((700, 701))
    least = 9 + len(empty)
    most = 8 + MAX_FRAME - 25 - (0 if label is None else 4)
    left = MAX_BYTES + rng.choice((-1, 0, 1)) - 9 - len(definition.rest)
    bodies = [
        wire.begin(0x100, 0, 700) if version == 1 else wire.stream_start(700, 1),
        wire.item(b"R", definition.rest, label),
    ]
    while left:
        cost = left if left <= most else min(most, left - least)
        left -= cost
        change = Change(b"I", [definition], new=[wire.binary(bytes(cost - least))])
        bodies.append(wire.item(b"I", change.rest(), label))
    content = wire.message_rest(
        0, 0, b"", bytes(MAX_FRAME - 25 - 15 - (0 if label is None else 4) + rng.randint(0, 1))
    )
    bodies.append(wire.item(b"M", content, label))
    if version == 2:
        small = Change(b"I", [definition], new=[wire.text(b"x")])
        bodies += [
            b"E",
            wire.stream_abort(700, rng.choice((700, 701))),
            wire.begin(0x200, 0, 702),
            wire.item(b"R", definition.rest),
            wire.item(b"I", small.rest()),
            wire.commit(0x200, 0x230, 0),
        ]
    session = b"".join(wire.xlog_data(0, 0, 0, body) for body in bodies)
    read = Reader(version).follow([session])
    file = program.file("session.raw", session)
    rows, status = model.dump(read.tables, read.position), int(read.fault is not None)
    compare(
        "at a limit",
        program,
        ["apply", "--raw", "--proto", str(version), file],
        status,
        rows,
        stop_line(read.fault),
    )


def text_damaged(rng, program):
    """A recording whose text is damaged: nothing is applied where a line is no line of a
    recording."""
    maker = Maker(rng)
    delivery = Delivery(rng, maker.values, maker.history(), maker.oids, 2)
    text = damaged_text(rng, recording(rng, delivery.sessions))
    file = program.file("recording.pgx", text)
    try:
        sessions = [b"".join(chunks) for chunks in sessions_of(text)]
    except BadLine as bad:
        compare(
            "a damaged text",
            program,
            ["apply", file],
            3,
            b"",
            stop_line(f"capture line {bad}: not hexadecimal"),
        )
        return
    read = Reader(2).follow(sessions)
    rows, status = model.dump(read.tables, read.position), int(read.fault is not None)
    compare("a damaged text", program, ["apply", file], status, rows, stop_line(read.fault))
