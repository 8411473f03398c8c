#!/usr/bin/env python3
"""Writes one long commit of a feed into a real Redis, and tells how much memory that takes.

  python3 tests/long_redis.py                     of 200,000 changes
  python3 tests/long_redis.py --changes 2000000

The commit updates, moves and deletes rows of a commit before it, inserts others, and truncates a
table that has as many. It is written as hashes and as streams: as a whole, and once more by sinks
that are killed amid it, to a Redis that is killed, too. Both lead to the same keys, which for hashes
are the rows that the changes leave. The last line is `N passed, M failed`.

exit status: 0 all are as they should be; 1 one isn't; 2 usage error
"""

from __future__ import annotations

import argparse
import hashlib
import os
import signal
import subprocess
import sys
import tempfile
import time
from collections.abc import Callable, Iterator
from pathlib import Path
from typing import Any

CONNECT = Path(__file__).resolve().parent.parent
sys.path[:0] = [str(CONNECT), str(CONNECT.parent / "tools")]

from feed_text import COMMIT_SIZE, Column, Definition, Line, Writer  # noqa: E402
from feed_text import change_line, commit_line, table_line  # noqa: E402
from live_server.engines import RedisServer  # noqa: E402

# The most that a sink takes, in kB.
MOST = 100 << 10
COLUMNS = (Column("id", 23, -1, True), Column("name", 25))
ITEMS = Definition(1, "public", "items", "d", COLUMNS)
EMPTIED = Definition(2, "public", "emptied", "d", COLUMNS)
FIRST, SECOND, LAST = 0x1000, 0x2000, 0x3000
# How long a sink may take, in seconds.
LONGEST = 600.0
Rows = dict[str, list[str]]


def before_it(count: int, rows: Rows) -> Iterator[Line]:
    """A commit that fills two tables."""
    for at in range(count // 2):
        rows[str(at)] = [str(at), f"first {at}"]
        yield Line(ITEMS, "c", None, rows[str(at)])
    for at in range(count // 2):
        yield Line(EMPTIED, "c", None, [str(at), "to go"])


def changes(count: int, rows: Rows) -> Iterator[Line]:
    """The long one, of so many changes."""
    for at in range(count - 2):
        key, kind = str(at % (count // 2)), at % 4
        if at == count // 2:
            yield Line(EMPTIED, "t")
            yield Line(EMPTIED, "c", None, ["7", "anew"])
        if key not in rows:
            rows[key] = [key, f"anew {at}"]
            yield Line(ITEMS, "c", None, rows[key])
        elif kind == 3:
            yield Line(ITEMS, "d", rows.pop(key))
        else:
            before = rows.pop(key)
            other = key if kind else f"{key}.{at}"
            rows[other] = [other, f"row {at}"]
            yield Line(ITEMS, "u", before, rows[other])


def put(feed: Writer, end: int, lines: Iterator[Line]) -> None:
    """Adds a commit of any size. (The writer of tests is slow with long ones.)"""
    start, parts, told, n = feed.size + COMMIT_SIZE, list[bytes](), dict[int, int](), 0
    size = 0
    for n, line in enumerate(lines):
        texts = []
        if line.definition.oid not in told:
            told[line.definition.oid] = start + size
            texts.append(table_line(line.definition))
        texts.append(change_line(told[line.definition.oid], n, line))
        parts += texts
        size += sum(map(len, texts))
    body = b"".join(parts)
    feed.put(commit_line(end, feed.at, body, n + 1, None) + body)
    feed.at = end


def memory_of(pid: int) -> int:
    """The most that a process has had in memory, in kB."""
    with open(f"/proc/{pid}/status", encoding="ascii") as status:
        return int(next(it for it in status if it.startswith("VmHWM")).split()[1])


class Run:
    """A sink of a form, and the Redis that it writes to."""

    def __init__(self, feed: Path, form: str, folder: Path) -> None:
        self.feed, self.form = feed, form
        self.redis = RedisServer(folder)
        self.redis.start()
        self.most = self.queued = 0

    def sink(self, *more: str) -> subprocess.Popen[bytes]:
        words = ["sink", "--feed", str(self.feed), "--as", self.form, *more, self.redis.url()]
        return subprocess.Popen([str(CONNECT / "pgsub-connect"), *words], stderr=subprocess.PIPE)

    def watch(self, sink: subprocess.Popen[bytes], until: Callable[[], bool]) -> None:
        """Looks at its memory until it ends, or something is so."""
        end = time.monotonic() + LONGEST
        while sink.poll() is None and not until():
            if time.monotonic() > end:
                sink.kill()
            try:
                self.most = max(self.most, memory_of(sink.pid))
            except (OSError, StopIteration):
                return
            time.sleep(0.01)

    def part(self) -> int:
        """How many changes of a commit are there."""
        found = self.redis.client().get("pgsub:part")
        return int(found.split('"done": ')[1].split(",")[0]) if found else 0

    def go(self, *more: str) -> float:
        """Has it write all that is there."""
        began, sink = time.monotonic(), self.sink("--once", *more)
        self.watch(sink, lambda: False)
        said = sink.communicate()[1]
        if sink.returncode:
            raise SystemExit(f"the sink ended with {sink.returncode}: {said.decode()}")
        return time.monotonic() - began

    def kill_at(self, done: int, number: int) -> int:
        """Ends it once so many changes of the long commit are there; how many those are then."""
        sink = self.sink("--once")
        self.watch(sink, lambda: self.part() >= done)
        sink.send_signal(number)
        sink.communicate()
        return self.part()

    def content(self) -> dict[str, Any]:
        """All that is there, but for who has written it; of streams a checksum."""
        if self.form == "hashes":
            return dict(self.redis.hashes())
        client, found = self.redis.client(), dict[str, Any]()
        for key in client.scan_iter(count=1000, _type="stream"):
            told, last, count = hashlib.sha256(), "-", 0
            while some := client.xrange(key, last, "+", 5000):
                told.update(repr(some).encode())
                last, count = "(" + some[-1][0], count + len(some)
            found[key] = count, told.hexdigest()
        return found


def hashes_of(rows: Rows) -> dict[str, dict[str, str]]:
    found = {f"items:{key}": {"id": row[0], "name": row[1]} for key, row in rows.items()}
    return {**found, "emptied:7": {"id": "7", "name": "anew"}}


def check(
    form: str, feed: Path, folder: Path, count: int, rows: Rows
) -> Iterator[tuple[str, bool]]:
    whole = Run(feed, form, folder / "whole")
    whole.go("--until", f"0/{FIRST:X}")
    whole.most = 0
    used = whole.redis.client().info("memory")["used_memory"]
    took = whole.go("--until", f"0/{SECOND:X}")
    info, expected = whole.redis.client().info("memory"), whole.content()
    peak = (info["used_memory_peak"] - max(used, info["used_memory"])) >> 10
    print(
        f"{form}: {took:.1f} s, {whole.most} kB in the sink, {peak} kB in Redis beside what it has"
    )
    yield f"{form}: the sink's memory", whole.most < MOST
    if form == "hashes":
        yield f"{form}: the rows", expected == hashes_of(rows)
    whole.redis.kill()
    cut = Run(feed, form, folder / "cut")
    cut.go("--until", f"0/{FIRST:X}")
    for share, number in ((0.2, signal.SIGKILL), (0.45, signal.SIGTERM), (0.5, signal.SIGKILL)):
        done = cut.kill_at(int(share * count), number)
        print(
            f"{form}: the sink was ended by {number} with {done} changes there, at {cut.redis.at()}"
        )
        yield f"{form}: ended amid it", 0 < done < count and cut.redis.at() == f"0/{FIRST:X}"
    sink = cut.sink("--until", f"0/{SECOND:X}")
    cut.watch(sink, lambda: cut.part() >= 0.7 * count)
    cut.redis.restart()
    print(
        f"{form}: Redis was killed and is there again with {cut.part()} changes, at {cut.redis.at()}"
    )
    cut.watch(sink, lambda: False)
    yield f"{form}: it goes on", not sink.wait()
    yield f"{form}: the same keys", cut.content() == expected
    yield f"{form}: the position", (cut.redis.at(), cut.part()) == (f"0/{SECOND:X}", 0)
    yield f"{form}: the memory of sinks that were killed", cut.most < MOST
    cut.redis.kill()


def main() -> int:
    about, _, more = (__doc__ or "").partition("\n\n")
    parser = argparse.ArgumentParser(
        description=about, epilog=more, formatter_class=argparse.RawDescriptionHelpFormatter
    )
    parser.add_argument("--changes", type=int, default=200000, help="how many the commit has")
    count = parser.parse_args().changes
    results = list[tuple[str, bool]]()
    with tempfile.TemporaryDirectory() as name:
        folder = Path(name)
        rows: Rows = {}
        (folder / "copy.feed").mkdir()
        feed = Writer(folder / "copy.feed")
        put(feed, FIRST, before_it(count, rows))
        put(feed, SECOND, changes(count, rows))
        # (one that follows ends once there is a later one)
        feed.commit(LAST)
        print(
            f"a commit of {count} changes, {os.path.getsize(feed.path) >> 20} MB with the one before"
        )
        for form in ("hashes", "streams"):
            results += check(form, feed.folder, folder / form, count, rows)
    wrong = [what for what, is_so in results if not is_so]
    for it in wrong:
        print(f"FAILED {it}")
    print(f"{len(results) - len(wrong)} passed, {len(wrong)} failed")
    return 1 if wrong else 0


if __name__ == "__main__":
    sys.exit(main())
