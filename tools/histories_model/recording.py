"""Recordings: a line of hexadecimal digits for each chunk, cut anywhere, and `--` between
sessions."""

# a recording above this is too long
LONGEST = 67108864
DIGITS = frozenset(b"0123456789abcdefABCDEF")


def chunks(rng, content):
    """Cuts bytes into chunks."""
    luck = rng.random()
    if luck < 0.15 and len(content) < 3000:
        return [content[at : at + 1] for at in range(len(content))]
    if luck < 0.35:
        return [content]
    places = sorted(
        rng.randint(0, len(content)) for _ in range(rng.choice((1, 3, 10, len(content) // 20 + 1)))
    )
    return [content[at:end] for at, end in zip([0] + places, places + [len(content)])]


def recording(rng, sessions):
    """The text of a recording of these sessions."""
    lines = []
    for number, content in enumerate(sessions):
        if number:
            lines.append("--")
        for chunk in chunks(rng, content):
            lines.append(chunk.hex() if rng.random() < 0.9 else chunk.hex().upper())
            if rng.random() < 0.02:
                lines.append(rng.choice(("", "# a comment", "#--", "#6g")))
    text = "\n".join(lines) + ("\n" if lines and rng.random() < 0.9 else "")
    return text.encode()


class BadLine(Exception):
    """A line, counted from 1, that is nothing of a recording."""


def sessions_of(text):
    """The chunks of each session of a recording; BadLine at its first bad line."""
    sessions = [[]]
    for number, line in enumerate(text.split(b"\n"), 1):
        if line == b"--":
            sessions.append([])
        elif line and not line.startswith(b"#"):
            if len(line) % 2 or not DIGITS.issuperset(line):
                raise BadLine(number)
            sessions[-1].append(bytes.fromhex(line.decode()))
    return sessions


def damaged_text(rng, text):
    """A recording's text with a few characters changed."""
    text = bytearray(text)
    for _ in range(rng.choice((1, 1, 2, 4))):
        at = rng.randint(0, len(text))
        text[at : at + rng.choice((0, 1, 1, 2))] = rng.choice(
            (
                b"",
                b"0",
                b"00",
                b"\n",
                b"\r",
                b"\n--\n",
                b"-",
                b"#",
                b" ",
                b"g",
                b"\xff",
                b"\0",
                b"\n#\xff\n",
                b"aF",
            )
        )
    return bytes(text)
