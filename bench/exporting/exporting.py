"""What `pgsub-connect export` takes of a processor, by the types of a table."""

from __future__ import annotations

import argparse
import random
import resource
import sqlite3
import statistics
import struct
import subprocess
import tempfile
from collections.abc import Callable, Sequence
from pathlib import Path
from typing import NamedTuple

from built import TOP

COMMAND = TOP / "connect/pgsub-connect"
SCHEMA = """
CREATE TABLE rel (oid INTEGER PRIMARY KEY NOT NULL, nsp TEXT NOT NULL, name TEXT NOT NULL, letter INTEGER NOT NULL,
 cols BLOB NOT NULL) STRICT;
CREATE TABLE held (oid INTEGER NOT NULL, ident BLOB NOT NULL, body BLOB NOT NULL, copies INTEGER NOT NULL,
 PRIMARY KEY (oid, ident)) STRICT;
CREATE TABLE pos (id INTEGER PRIMARY KEY NOT NULL CHECK (id = 0), lsn BLOB NOT NULL) STRICT;
"""
OID, LSN = 16384, 0x100
Cells = Sequence[str | None]


class Kind(NamedTuple):
    """A table: its name, the types of its columns, of which the first one is the key, and a row
    by its number."""

    name: str
    types: Sequence[tuple[int, int]]
    row: Callable[[int, random.Random], Cells]


def texts(number: int, rng: random.Random) -> Cells:
    return [f"{number:010}", *(f"{rng.randrange(10**9):010}" for _ in range(3))]


def types(number: int, rng: random.Random) -> Cells:
    second, cents = rng.randrange(60), rng.randrange(10**9)
    moment = f"2026-11-28 12:00:{second:02}.{rng.randrange(10**6):06}"
    price, exact = f"{cents // 100}.{cents % 100:02}", f"{cents}.{second}"
    return [str(number), str(second), price, exact, moment, "tf"[number % 2], repr(rng.random())]


def nulls(number: int, rng: random.Random) -> Cells:
    return [str(number), *(f"{number}" if rng.random() < 0.5 else None for _ in range(3))]


TEXT, NUMBER = (25, -1), (20, -1)
# A numeric of ten digits, two of them behind the point, and one of any.
PRICE, NUMERIC = (1700, (10 << 16) + 2 + 4), (1700, -1)
KINDS = (
    Kind("four texts", [TEXT] * 4, texts),
    Kind(
        "bigint, integer, two numerics, timestamp, boolean, float",
        [NUMBER, (23, -1), PRICE, NUMERIC, (1114, -1), (16, -1), (701, -1)],
        types,
    ),
    Kind("bigint and three texts, half of them null", [NUMBER, *[TEXT] * 3], nulls),
)


def counted(parts: Sequence[bytes]) -> bytes:
    return struct.pack(">H", len(parts)) + b"".join(parts)


def cells(row: Cells) -> bytes:
    """A row as a store has it."""
    texts = (None if it is None else it.encode() for it in row)
    return counted([b"n" if it is None else b"t" + struct.pack(">I", len(it)) + it for it in texts])


def make(path: Path, kind: Kind, rows: int) -> None:
    """A store with one table."""
    columns = [
        bytes([at == 0]) + f"c{at}".encode() + b"\0" + struct.pack(">Ii", *it)
        for at, it in enumerate(kind.types)
    ]
    drawn = (kind.row(number, random.Random(number)) for number in range(rows))
    with sqlite3.connect(path) as db:
        db.execute("PRAGMA page_size = 1024")
        db.executescript(SCHEMA)
        db.execute("INSERT INTO pos VALUES (0, ?)", (LSN.to_bytes(8, "big"),))
        relation = (OID, "public", "measured", ord("d"), counted(columns))
        db.execute("INSERT INTO rel VALUES (?, ?, ?, ?, ?)", relation)
        held = ((OID, cells(it[:1]), cells(it), 1) for it in drawn)
        db.executemany("INSERT INTO held VALUES (?, ?, ?, ?)", held)
    db.close()


def processor() -> float:
    used = resource.getrusage(resource.RUSAGE_CHILDREN)
    return used.ru_utime + used.ru_stime


def took(store: Path) -> float:
    """What an export takes of a processor, in seconds."""
    into, before = store.with_suffix(".exported"), processor()
    words = [str(COMMAND), "export", "--store", str(store), "--into", str(into)]
    subprocess.run(words, check=True, stderr=subprocess.DEVNULL)
    into.unlink()
    return processor() - before


def measure(folder: Path, kind: Kind, rows: int, turns: int) -> str:
    empty, full = folder / "empty.db", folder / "full.db"
    for path, count in ((empty, 0), (full, rows)):
        path.unlink(missing_ok=True)
        make(path, kind, count)
    each = [(took(full) - took(empty)) * 1e6 / rows for _ in range(turns)]
    shown = ", ".join(f"{it:.1f}" for it in each)
    return f"| {kind.name} | {statistics.median(each):.1f} | {shown} |"


def main() -> None:
    parser = argparse.ArgumentParser(prog="bench/run exporting")
    parser.add_argument("--rows", type=int, default=1_000_000)
    parser.add_argument("--turns", type=int, default=3)
    parser.add_argument("--folder")
    options = parser.parse_args()
    print("| Columns | Processor seconds a million rows, median | In each turn |\n|---|---|---|")
    for kind in KINDS:
        with tempfile.TemporaryDirectory(dir=options.folder) as folder:
            print(measure(Path(folder), kind, options.rows, options.turns), flush=True)


if __name__ == "__main__":
    main()
