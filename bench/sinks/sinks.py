"""How fast `pgsub-connect sink` takes a feed into Redis and NATS, beside `pgsub-connect tables`
into SQLite."""

from __future__ import annotations

import argparse
import subprocess
import tempfile
import time
from collections.abc import Iterator
from pathlib import Path

from live_server.engines import Engine, NatsServer, RedisServer
from tables import COMMAND, processor, words, write

# (a log of commands that is synced each second, which is what a sink can go on from after a crash)
SINKS: tuple[tuple[str, type[Engine], tuple[str, ...]], ...] = (
    ("Redis, hashes", RedisServer, ()),
    ("Redis, streams", RedisServer, ("--as", "streams")),
    ("NATS", NatsServer, ()),
)


def timed(what: list[str], count: int) -> tuple[float, float]:
    """The changes in a second, and what each takes of this process' processors, in microseconds."""
    before, began = processor(), time.monotonic()
    subprocess.run(what, check=True, stderr=subprocess.DEVNULL)
    took, used = time.monotonic() - began, processor() - before
    return count / took, 1e6 * used / count


def runs(folder: Path) -> Iterator[tuple[str, list[str], Engine | None]]:
    """What is measured: its name, its words, and its engine, which runs meanwhile."""
    yield "SQLite", words(folder, "--once"), None
    for number, (name, kind, more) in enumerate(SINKS):
        engine = kind(folder / f"engine{number}")
        engine.start()
        try:
            yield name, [
                str(COMMAND),
                "sink",
                engine.url(),
                "--feed",
                str(folder / "feed"),
                "--once",
                *more,
            ], engine
        finally:
            engine.kill()


def main() -> None:
    parser = argparse.ArgumentParser(prog="bench/run sinks")
    parser.add_argument("--changes", type=int, default=400000)
    parser.add_argument("--folder")
    options = parser.parse_args()
    print(
        "| Changes | In a commit | Into | In a second | Processor of the reader, µs each |\n|---|---|---|---|---|"
    )
    for are_inserts in (True, False):
        for each in (1, 100):
            count = options.changes // (10 if each == 1 else 1)
            with tempfile.TemporaryDirectory(dir=options.folder) as name:
                folder = Path(name)
                write(folder / "feed", count, each, are_inserts)
                for into, what, _ in runs(folder):
                    rate, used = timed(what, count)
                    print(
                        f"| {'inserts' if are_inserts else 'updates'} | {each} | {into} | {rate:,.0f} | {used:.1f} |",
                        flush=True,
                    )


if __name__ == "__main__":
    main()
