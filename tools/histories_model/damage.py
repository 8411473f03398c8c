"""Damage to sessions: bytes changed, removed and put in, counts that claim much, frames out of
order."""

import struct

COUNTS = (
    0,
    1,
    2,
    3,
    4,
    5,
    0x641,
    0x640,
    0xFF,
    0xFFFF,
    0x10000,
    0x01000004,
    0x01000005,
    0x40000000,
    0x7FFFFFFE,
    0x7FFFFFFF,
    0x80000000,
    0xFFFFFFFE,
    0xFFFFFFFF,
)
LETTERS = b"BCORYIUDTMSEcAdwkKONnutbfi\0\1\2\xff"


def byte_damage(rng, content):
    """Damages bytes, wherever they are."""
    if not content:
        return rng.randbytes(rng.randint(0, 9))
    content = bytearray(content)
    for _ in range(rng.choice((1, 1, 1, 2, 5))):
        at = rng.randrange(len(content)) if content else 0
        luck = rng.random()
        if luck < 0.25:
            content[at : at + 1] = rng.randbytes(1)
        elif luck < 0.4:
            content[at : at + 1] = bytes([rng.choice(LETTERS)])
        elif luck < 0.5 and content:
            content[at % len(content)] ^= 1 << rng.randrange(8)
        elif luck < 0.6:
            del content[at : at + rng.choice((1, 1, 2, 4, 30))]
        elif luck < 0.7:
            content[at:at] = rng.randbytes(rng.choice((1, 1, 2, 4, 30)))
        elif luck < 0.85:
            content[at : at + 4] = struct.pack(">I", rng.choice(COUNTS))
        elif luck < 0.95:
            content[at : at + 2] = struct.pack(">H", rng.choice(COUNTS) & 0xFFFF)
        else:
            del content[at:]
    return bytes(content)


def frames_of(content):
    """The whole frames that bytes begin with, and what follows them."""
    frames, at = [], 0
    while len(content) - at >= 5:
        end = at + 1 + struct.unpack_from(">I", content, at + 1)[0]
        if end > len(content):
            break
        frames.append(content[at:end])
        at = end
    return frames, content[at:]


def put_length(frame):
    """The frame with the length that it has."""
    return frame[:1] + struct.pack(">I", len(frame) - 1) + frame[5:]


def is_commit(frame):
    return frame[5:6] == b"w" and frame[30:31] in (b"C", b"c")


def commit_damage(rng, frame):
    """A Commit or Stream Commit of which an LSN, the flags or the xid have changed."""
    body = bytearray(frame[30:])
    # (it may have been shortened before)
    body[rng.randrange(max(1, len(body) - 8))] ^= 1 << rng.randrange(8)
    return frame[:30] + bytes(body)


def frame_damage(rng, frames):
    """Damages whole frames: their order, and bytes inside them under a length that fits."""
    frames = list(frames)
    for _ in range(rng.choice((1, 1, 1, 2, 5))):
        if not frames:
            return frames
        at, other = rng.randrange(len(frames)), rng.randrange(len(frames))
        near = min(at + rng.choice((1, 1, 2)), len(frames) - 1)
        luck = rng.random()
        if luck < 0.12:
            frames[at], frames[other] = frames[other], frames[at]
        elif luck < 0.27:
            frames[at], frames[near] = frames[near], frames[at]
        elif luck < 0.4:
            del frames[at]
        elif luck < 0.5:
            frames.insert(other, frames[at])
        elif luck < 0.6 and any(map(is_commit, frames)):
            at = rng.choice([place for place, frame in enumerate(frames) if is_commit(frame)])
            frames[at] = commit_damage(rng, frames[at])
        elif luck < 0.85 and len(frames[at]) > 30:
            body = byte_damage(rng, frames[at][30:])
            frames[at] = put_length(frames[at][:30] + body)
        elif luck < 0.95:
            frames[at] = put_length(frames[at][:5] + byte_damage(rng, frames[at][5:]))
        else:
            frames[at] = put_length(frames[at][: rng.randint(5, len(frames[at]))])
    return frames


def damaged_tail(rng, frames):
    """Sessions' frames with damage behind the last commit alone: what comes before it, and the
    damaged rest without commits."""
    commits = [
        place for place, (_, effect) in enumerate(frames) if effect and effect[0] == "commit"
    ]
    keep = rng.choice(commits) + 1 if commits and rng.random() < 0.9 else 0
    rest = [frame for frame, _ in frames[keep:] if not is_commit(frame)]
    rest = rest[: rng.randint(1, 30)]
    content = b"".join(frame_damage(rng, rest))
    if rng.random() < 0.6:
        content = byte_damage(rng, content)
    return frames[:keep], content
