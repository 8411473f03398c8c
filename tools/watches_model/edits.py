"""One edit of a session's frames, of the kinds by which a server may break a rule."""

import random
import struct
from collections.abc import Callable, Iterator

from .frames import abort, body_of, copy_data, keepalive, with_body

Frames = list[bytes]
MOST = 2**64 - 1
# where a message has its xid, in its body
XID_AT = {b"B": 17, b"S": 1, b"c": 1, b"A": 1}


def bodies(frames: Frames, letters: bytes) -> list[int]:
    """The places of the logical messages with one of these letters."""
    return [at for at, it in enumerate(frames) if (body_of(it) or b" ")[0] in letters]


def changed(frame: bytes, at: int, layout: str, value: int) -> bytes:
    """The frame with another number at an offset of its message."""
    body = bytearray(frame[30:])
    struct.pack_into(layout, body, at, value)
    return with_body(frame, bytes(body))


def number(frame: bytes, at: int) -> int:
    """An xid or OID at an offset of a message."""
    found: int = struct.unpack_from(">I", frame, 30 + at)[0]
    return found


def blocks_of(frames: Frames, letters: bytes) -> dict[int, int]:
    """The places of messages inside stream blocks, with the xid of each one's block."""
    found: dict[int, int] = {}
    xid: int | None = None
    for at, frame in enumerate(frames):
        letter = (body_of(frame) or b" ")[:1]
        if letter in b"SE":
            xid = number(frame, 1) if letter == b"S" else None
        elif xid is not None and letter in letters:
            found[at] = xid
    return found


def in_blocks(frames: Frames, letters: bytes) -> list[int]:
    """The places of messages inside stream blocks."""
    return [*blocks_of(frames, letters)]


def some_xid(rng: random.Random, frames: Frames) -> int:
    """Mostly one that the session has."""
    found: list[int] = []
    for at in bodies(frames, b"BScA"):
        body = frames[at][30:]
        found += struct.unpack_from(">I", body, XID_AT[body[:1]])
        found += struct.unpack_from(">I", body, 5) if body[:1] == b"A" else ()
    found += (number(frames[at], 1) for at in in_blocks(frames, b"RIUDT"))
    return rng.choice(found) if found and rng.random() < 0.9 else rng.getrandbits(32)


def some_lsn(rng: random.Random, frames: Frames, near: int) -> int:
    """One beside this one, or that of another commit, or any."""
    found = [near - 1, near + 1, near + rng.randint(-200, 200), rng.getrandbits(64)]
    for at in bodies(frames, b"Cc"):
        found += struct.unpack_from(
            ">QQ", frames[at], 30 + (2 if frames[at][30] == ord("C") else 6)
        )
    return min(max(rng.choice(found), 0), MOST)


def drop(rng: random.Random, frames: Frames) -> Frames:
    at = rng.randrange(len(frames))
    return frames[:at] + frames[at + 1 :]


def drop_of(letters: bytes) -> Callable[[random.Random, Frames], Frames | None]:
    def dropped(rng: random.Random, frames: Frames) -> Frames | None:
        places = bodies(frames, letters)
        at = rng.choice(places) if places else None
        return None if at is None else frames[:at] + frames[at + 1 :]

    return dropped


def double(rng: random.Random, frames: Frames) -> Frames:
    at = rng.randrange(len(frames))
    other = at if rng.random() < 0.5 else rng.randint(0, len(frames))
    return frames[:other] + [frames[at]] + frames[other:]


def exchange(rng: random.Random, frames: Frames) -> Frames:
    new = list(frames)
    at = rng.randrange(len(new))
    other = min(at + 1, len(new) - 1) if rng.random() < 0.6 else rng.randrange(len(new))
    new[at], new[other] = new[other], new[at]
    return new


def move(rng: random.Random, frames: Frames) -> Frames:
    new = list(frames)
    frame = new.pop(rng.randrange(len(new)))
    new.insert(rng.randint(0, len(new)), frame)
    return new


def put(frames: Frames, at: int, frame: bytes) -> Frames:
    return [*frames[:at], frame, *frames[at + 1 :]]


def xid(rng: random.Random, frames: Frames) -> Frames | None:
    places = bodies(frames, b"BScA")
    if not places:
        return None
    at = rng.choice(places)
    frame = frames[at]
    return put(frames, at, changed(frame, XID_AT[frame[30:31]], ">I", some_xid(rng, frames)))


def subxid(rng: random.Random, frames: Frames) -> Frames | None:
    places = in_blocks(frames, b"RIUDT") + bodies(frames, b"A")
    if not places:
        return None
    at = rng.choice(places)
    new = some_xid(rng, frames)
    return put(frames, at, changed(frames[at], subxid_at(frames[at]), ">I", new))


def entries_of(frames: Frames) -> dict[int, list[int]]:
    """By the xid of each streamed transaction the places of its items and aborts."""
    found: dict[int, list[int]] = {}
    for at, xid in blocks_of(frames, b"RIUDT").items():
        found.setdefault(xid, []).append(at)
    for at in bodies(frames, b"A"):
        found.setdefault(number(frames[at], 1), []).append(at)
    return found


def subxid_at(frame: bytes) -> int:
    """The offset of an item's or abort's second xid."""
    return 5 if frame[30:31] == b"A" else 1


def sibling(rng: random.Random, frames: Frames) -> Frames | None:
    """An item or abort with the subxid of another one of its transaction."""
    found = [places for places in entries_of(frames).values() if len(places) > 1]
    if not found:
        return None
    at, other = rng.sample(rng.choice(found), 2)
    new = number(frames[other], subxid_at(frames[other]))
    return put(frames, at, changed(frames[at], subxid_at(frames[at]), ">I", new))


def goes_on(rng: random.Random, frames: Frames) -> Frames | None:
    """An item again, in a place of a later or earlier item of its transaction."""
    places = blocks_of(frames, b"RIUDT")
    if len(places) < 2:
        return None
    at = rng.choice([*places])
    other = rng.choice([it for it in places if places[it] == places[at]])
    return frames[:other] + [frames[at]] + frames[other:]


def extra_abort(rng: random.Random, frames: Frames) -> Frames:
    """An abort more, mostly of a subtransaction that is there, behind a block or an abort."""
    entries = entries_of(frames)
    top, sub = some_xid(rng, frames), some_xid(rng, frames)
    if entries and rng.random() < 0.8:
        top = rng.choice([*entries])
        one = frames[rng.choice(entries[top])]
        sub = number(one, subxid_at(one))
    places = [at + 1 for at in bodies(frames, b"AE")] or [0]
    at = rng.choice(places) if rng.random() < 0.9 else rng.randint(0, len(frames))
    return frames[:at] + [abort(top, sub)] + frames[at:]


def lsns(rng: random.Random, frames: Frames) -> Frames | None:
    """A commit with another LSN, mostly also in its Begin."""
    places = bodies(frames, b"Cc")
    if not places:
        return None
    at = rng.choice(places)
    where = 2 if frames[at][30:31] == b"C" else 6
    was = struct.unpack_from(">Q", frames[at], 30 + where)[0]
    new = some_lsn(rng, frames, was)
    edited = put(frames, at, changed(frames[at], where, ">Q", new))
    begins = [it for it in bodies(frames[:at], b"B")]
    if where == 2 and begins and rng.random() < 0.9:
        edited[begins[-1]] = changed(frames[begins[-1]], 1, ">Q", new)
    return edited


def end(rng: random.Random, frames: Frames) -> Frames | None:
    places = bodies(frames, b"Cc")
    if not places:
        return None
    at = rng.choice(places)
    where = 10 if frames[at][30:31] == b"C" else 14
    was = struct.unpack_from(">Q", frames[at], 30 + where)[0]
    lsn = struct.unpack_from(">Q", frames[at], 22 + where)[0]
    new = rng.choice((lsn, some_lsn(rng, frames, was)))
    return put(frames, at, changed(frames[at], where, ">Q", new))


def high_keepalive(rng: random.Random, frames: Frames) -> Frames | None:
    """A keepalive more, as far as a later commit ends or about there."""
    places = bodies(frames, b"Cc")
    if not places:
        return None
    last = rng.choice(places)
    where = 40 if frames[last][30:31] == b"C" else 44
    told = struct.unpack_from(">Q", frames[last], where)[0] + rng.choice((-1, 0, 0, 1))
    at = rng.randint(0, last)
    return frames[:at] + [keepalive(min(told, MOST))] + frames[at:]


def oid(rng: random.Random, frames: Frames) -> Frames | None:
    """A relation or a change of another table."""
    inside = {*in_blocks(frames, b"RIUD")}
    places = bodies(frames, b"RIUD")
    if not places:
        return None
    at, other = rng.choice(places), rng.choice(places)
    new = number(frames[other], 5 if other in inside else 1)
    new = new if rng.random() < 0.5 else (new + 1) % 2**32
    return put(frames, at, changed(frames[at], 5 if at in inside else 1, ">I", new))


def byte(rng: random.Random, frames: Frames) -> Frames | None:
    """One byte of a message changed, put in or left out."""
    places = [at for at, it in enumerate(frames) if body_of(it)]
    if not places:
        return None
    at = rng.choice(places)
    body = bytearray(frames[at][30:])
    where = rng.randrange(len(body))
    new = rng.choice((b"\xff", b"\xff", b"\xc3", b"", rng.randbytes(1), bytes(2)))
    body[where : where + 1] = new
    if rng.random() < 0.2:
        body = bytearray(frames[at][30:]) + b"\0"
    return put(frames, at, with_body(frames[at], bytes(body)))


def payload(rng: random.Random, frames: Frames) -> Frames:
    """A frame that isn't one of a server, between others."""
    at = rng.randint(0, len(frames))
    new = rng.choice(
        (
            copy_data(b""),
            copy_data(b"w" + bytes(rng.randint(0, 23))),
            copy_data(b"k" + bytes(rng.choice((0, 16, 18)))),
            copy_data(b"k" + bytes(16) + bytes([rng.randint(2, 255)])),
            copy_data(bytes([rng.randint(0, 255)]) + bytes(17)),
            b"d" + struct.pack(">I", rng.choice((0, 1, 2, 3, 2**31, 2**32 - 1))),
            b"d" + struct.pack(">I", rng.choice((16777220, 16777221, 2**31 - 1))),
            b"c" + struct.pack(">I", rng.choice((3, 5))) + b"x",
            b"E" + struct.pack(">I", 5) + b"x",
            b"c\0\0\0\4",
        )
    )
    return frames[:at] + [new] + frames[at:]


Edit = Callable[[random.Random, Frames], Frames | None]
EDITS: dict[str, Edit] = {
    "a frame left out": drop,
    "a Relation left out": drop_of(b"R"),
    "an abort left out": drop_of(b"A"),
    "a Begin, Commit, Start or Stop left out": drop_of(b"BCSEc"),
    "a frame doubled": double,
    "two frames exchanged": exchange,
    "a frame moved": move,
    "another xid": xid,
    "another subxid": subxid,
    "another subxid of its transaction": sibling,
    "an item again": goes_on,
    "an abort more": extra_abort,
    "another LSN": lsns,
    "another end": end,
    "a keepalive more": high_keepalive,
    "another table": oid,
    "another byte": byte,
    "another payload": payload,
}


def edited(rng: random.Random, frames: Frames) -> Iterator[tuple[str, Frames]]:
    """Each kind of edit once, where it can be made, at a random place."""
    for name, edit in EDITS.items():
        new = edit(rng, frames) if frames else None
        if new is not None:
            yield name, new
