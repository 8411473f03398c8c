"""A Redis in memory: the commands that a sink has, with what they say."""

from __future__ import annotations

import collections
import fnmatch
import re
from collections.abc import Callable, Sequence
from typing import Any

from pgsub_feed.interruption import Check, never
from pgsub_feed.sinks.redis_calls import Command, Said

WRONG_TYPE = "WRONGTYPE Operation against a key holding the wrong kind of value"


class Stream(dict[tuple[int, int], dict[bytes, bytes]]):
    """The entries of a stream, by their ids."""

    last = (0, 0)


class FakeRedis:
    """What it has by keys: bytes, the fields of a hash, or a stream. `changed` counts how often a
    key was altered."""

    def __init__(self) -> None:
        self.data = dict[bytes, Any]()
        self.changed = collections.Counter[bytes]()
        self.transactions, self.largest = 0, 0
        # by cursors of searches the keys up to which they have come
        self.cursors = dict[bytes, bytes]()
        # what happens before an EXEC, and what is said in the place of its result
        self.before_exec: Callable[[], None] = lambda: None
        self.fails: Callable[[], Said | None] = lambda: None
        self.info, self.save = b"aof_enabled:1\r\naof_last_write_status:ok\r\n", b"3600 1"
        self.syncs: Any = [b"appendfsync", b"everysec", b"no-appendfsync-on-rewrite", b"no"]

    def rows(self) -> dict[str, dict[str, str]]:
        """The hashes."""
        return {
            key.decode(): {
                name.decode(): cell.decode(errors="backslashreplace") for name, cell in it.items()
            }
            for key, it in self.data.items()
            if type(it) is dict
        }

    def at(self) -> str | None:
        found = self.data.get(b"pgsub:lsn")
        return found.decode() if found else None

    def entries(self, stream: str) -> list[tuple[tuple[int, int], dict[str, str]]]:
        found = self.data.get(stream.encode(), Stream())
        return [
            (at, {name.decode(): it.decode() for name, it in fields.items()})
            for at, fields in found.items()
        ]

    # ---- commands

    def do(self, command: Sequence[bytes]) -> Any:
        name, *arguments = command
        call: Callable[..., Any] = getattr(self, "do_" + name.decode().lower())
        return call(*arguments)

    def touch(self, key: bytes) -> None:
        self.changed[key] += 1

    def do_set(self, key: bytes, value: bytes) -> bytes:
        self.data[key] = value
        self.touch(key)
        return b"OK"

    def do_mget(self, *keys: bytes) -> list[Any]:
        return [it if isinstance(it, bytes) else None for it in map(self.data.get, keys)]

    def do_unlink(self, *keys: bytes) -> int:
        there = [it for it in set(keys) if it in self.data]
        for key in there:
            del self.data[key]
            self.touch(key)
        return len(there)

    do_del = do_unlink

    def do_exists(self, *keys: bytes) -> int:
        return len([it for it in keys if it in self.data])

    def do_rename(self, old: bytes, new: bytes) -> Any:
        if old not in self.data:
            return Said("no such key")
        self.data[new] = self.data.pop(old)
        self.touch(old)
        self.touch(new)
        return b"OK"

    def do_hset(self, key: bytes, *pairs: bytes) -> Any:
        found = self.data.setdefault(key, {})
        if type(found) is not dict:
            return Said(WRONG_TYPE)
        found.update(zip(pairs[::2], pairs[1::2]))
        self.touch(key)
        return len(pairs) // 2

    def do_hdel(self, key: bytes, *names: bytes) -> int:
        for name in names:
            self.data.get(key, {}).pop(name, None)
        if self.data.get(key) == {}:
            del self.data[key]
        self.touch(key)
        return len(names)

    def do_hgetall(self, key: bytes) -> list[bytes]:
        return [it for pair in self.data.get(key, {}).items() for it in pair]

    def do_scan(
        self, cursor: bytes, _: bytes, pattern: bytes, __: bytes, count: bytes
    ) -> list[Any]:
        # (what is removed meanwhile makes it pass over nothing that stays)
        keys = [it for it in sorted(self.data) if it > self.cursors.get(cursor, b"")]
        # (a backslash escapes a sign)
        glob = re.sub(r"\\(.)", lambda it: f"[{it[1]}]", pattern.decode())
        found = [it for it in keys[:3] if fnmatch.fnmatchcase(it.decode(errors="replace"), glob)]
        if len(keys) <= 3:
            return [b"0", found]
        self.cursors[next_cursor := b"%d" % (len(self.cursors) + 1)] = keys[2]
        return [next_cursor, found]

    def do_xadd(self, key: bytes, id: bytes, *pairs: bytes) -> Any:
        found = self.data.setdefault(key, Stream())
        if not isinstance(found, Stream):
            return Said(WRONG_TYPE)
        at = (int(id.partition(b"-")[0]), int(id.partition(b"-")[2]))
        if at <= found.last:
            return Said(
                "ERR The ID specified in XADD is equal or smaller than the target stream top item"
            )
        found[at], found.last = dict(zip(pairs[::2], pairs[1::2])), at
        self.touch(key)
        return id

    def do_xinfo(self, _: bytes, key: bytes) -> Any:
        found = self.data.get(key)
        if found is None:
            return Said("no such key")
        if not isinstance(found, Stream):
            return Said(WRONG_TYPE)
        return [b"length", len(found), b"last-generated-id", b"%d-%d" % found.last]

    def do_info(self, _: bytes) -> bytes:
        return self.info

    def do_time(self) -> list[bytes]:
        return [b"1000", b"0"]

    def do_config(self, _: bytes, name: bytes) -> Any:
        return [b"save", self.save] if name == b"save" else self.syncs


class FakeCalls:
    """A connection."""

    where = "Redis"

    def __init__(self, server: FakeRedis, check: Check = never) -> None:
        self.server, self.check = server, check
        self.watched = dict[bytes, int]()
        self.queue: list[list[bytes]] | None = None
        self.is_closed = self.is_lost = False

    def run(self, commands: Sequence[Command]) -> list[Any]:
        return [
            self.one([it if isinstance(it, bytes) else str(it).encode() for it in command])
            for command in commands
        ]

    def end_by(self, check: Check) -> None:
        self.check = check

    def one(self, command: list[bytes]) -> Any:
        name = command[0]
        if name == b"MULTI":
            self.queue = []
            return b"OK"
        if name == b"EXEC":
            return self.execute()
        if self.queue is not None:
            self.queue.append(command)
            return b"QUEUED"
        if name == b"WATCH":
            for key in command[1:]:
                self.watched.setdefault(key, self.server.changed[key])
            return b"OK"
        return self.server.do(command)

    def execute(self) -> Any:
        queue, self.queue = self.queue or [], None
        self.server.before_exec()
        watched, self.watched = self.watched, {}
        if failed := self.server.fails():
            return failed
        if any(self.server.changed[key] != count for key, count in watched.items()):
            return None
        self.server.transactions += 1
        self.server.largest = max(self.server.largest, len(queue))
        return [self.server.do(it) for it in queue]

    def close(self) -> None:
        self.is_closed = True
