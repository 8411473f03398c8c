"""How fast `pgsub-connect tables` takes a feed into SQLite, and how long it takes from a commit in
the feed to a SELECT."""

from __future__ import annotations

import argparse
import contextlib
import random
import resource
import sqlite3
import statistics
import subprocess
import tempfile
import time
from collections.abc import Iterator
from pathlib import Path

import pgbench_feed
from built import TOP
from feed_text import Column, Definition, Line, Writer, lsn_text

TRANSACTIONS = 20000
COMMAND = TOP / "connect/pgsub-connect"
STOCK = Definition(
    16384,
    "public",
    "stock",
    "d",
    (Column("id", 23, -1, True), Column("v", 25), Column("w", 25), Column("n", 23)),
)


def changes(count: int, are_inserts: bool, rng: random.Random) -> Iterator[Line]:
    rows: list[list[str]] = []
    for number in range(count):
        if are_inserts or number < count // 4:
            rows.append(
                [
                    str(number),
                    f"{rng.randrange(10**9):010}",
                    f"{rng.randrange(10**9):010}",
                    str(number % 100),
                ]
            )
            yield Line(STOCK, "c", None, rows[-1])
        else:
            at = rng.randrange(len(rows))
            before = rows[at]
            rows[at] = [before[0], f"{rng.randrange(10**9):010}", *before[2:]]
            yield Line(STOCK, "u", before, rows[at])


def write(folder: Path, count: int, each: int, are_inserts: bool) -> None:
    """A feed of so many changes, so many in a commit."""
    folder.mkdir()
    writer, waiting = Writer(folder), list[Line]()
    for line in changes(count, are_inserts, random.Random(1)):
        waiting.append(line)
        if len(waiting) == each:
            writer.commit(writer.at + 0x100, waiting)
            waiting = []


def words(folder: Path, *more: str) -> list[str]:
    return [
        str(COMMAND),
        "tables",
        "--feed",
        str(folder / "feed"),
        "--into",
        str(folder / "rows.db"),
        *more,
    ]


def processor() -> float:
    used = resource.getrusage(resource.RUSAGE_CHILDREN)
    return used.ru_utime + used.ru_stime


def run(folder: Path, count: int, *more: str) -> str:
    """Takes all of a feed into a new file."""
    before, began = processor(), time.monotonic()
    subprocess.run(words(folder, "--once", *more), check=True, stderr=subprocess.DEVNULL)
    took, used = time.monotonic() - began, processor() - before
    (folder / "rows.db").unlink()
    return f"{count / took:,.0f} | {1e6 * used / count:.1f}"


def measure(folder: Path, count: int, each: int, are_inserts: bool) -> str:
    write(folder / "feed", count, each, are_inserts)
    kind = "inserts" if are_inserts else "updates"
    return f"| {kind} | {each:,} | {run(folder, count)} | {run(folder, count, '--digests')} |"


def lags(folder: Path, count: int, pause: float) -> list[float]:
    """The seconds from each commit until a SELECT sees it."""
    (folder / "feed").mkdir()
    writer = Writer(folder / "feed")
    writer.commit(0x100)
    process = subprocess.Popen(words(folder), stderr=subprocess.DEVNULL)
    try:
        while not (folder / "rows.db").exists():
            time.sleep(0.01)
        with contextlib.closing(
            sqlite3.connect(folder / "rows.db", timeout=10, isolation_level=None)
        ) as base:
            return [lag(base, writer, number, pause) for number in range(count)]
    finally:
        process.terminate()
        process.wait()


def lag(base: sqlite3.Connection, writer: Writer, number: int, pause: float) -> float:
    time.sleep(pause)
    began = time.monotonic()
    writer.commit(writer.at + 0x100, [Line(STOCK, "c", None, [str(number), "a", "b", "1"])])
    while base.execute("SELECT lsn FROM pgsub_position").fetchone()[0] != lsn_text(writer.at):
        time.sleep(0.0005)
    return time.monotonic() - began


def of_pgbench(folder: Path, transactions: int) -> float:
    """The processor seconds that transactions of pgbench take, without the first rows."""
    took = []
    for count in (0, transactions):
        pgbench_feed.write(folder / "feed", count)
        before = processor()
        subprocess.run(words(folder, "--once"), check=True, stderr=subprocess.DEVNULL)
        took.append(processor() - before)
        for path in (folder / "feed").iterdir():
            path.unlink()
        (folder / "feed").rmdir()
        (folder / "rows.db").unlink()
    return took[1] - took[0]


def main() -> None:
    parser = argparse.ArgumentParser(prog="bench/run tables")
    parser.add_argument("--changes", type=int, default=400000)
    parser.add_argument("--folder")
    options = parser.parse_args()
    print(
        "| Changes | In a commit | In a second | Processor, µs each | With digests | Processor, µs each |\n|---|---|---|---|---|---|"
    )
    for are_inserts in (True, False):
        for each in (1, 100, 10000):
            with tempfile.TemporaryDirectory(dir=options.folder) as folder:
                print(
                    measure(
                        Path(folder), options.changes // (10 if each == 1 else 1), each, are_inserts
                    ),
                    flush=True,
                )
    with tempfile.TemporaryDirectory(dir=options.folder) as folder:
        took = of_pgbench(Path(folder), TRANSACTIONS)
    print(
        f"\n{TRANSACTIONS:,} transactions of pgbench take {took:.2f} s of a processor.",
        flush=True,
    )
    print(
        "\n| A commit each | Until a SELECT sees it, ms: median | Of 20 one takes longer than |\n|---|---|---|"
    )
    for pause in (0.005, 0.2):
        with tempfile.TemporaryDirectory(dir=options.folder) as folder:
            found = sorted(lags(Path(folder), 100, pause))
        print(
            f"| {1000 * pause:.0f} ms | {1000 * statistics.median(found):.1f} | {1000 * found[-len(found) // 20]:.1f} |",
            flush=True,
        )


if __name__ == "__main__":
    main()
