"""Replays a feed by what its format says and nothing else: the rows of each table, as the server
prints them.

It shares no code with the connector's readers. Each commit has to go on where the one before it
ends, its lines have to be as many bytes and changes as it says, and the row before each change has
to be there.
"""

from __future__ import annotations

import json
import zlib
from collections import Counter
from collections.abc import Iterator
from pathlib import Path
from typing import Any, NamedTuple

HEAD, COMMIT = 1024, 256
Row = tuple[str | bytes | None, ...]


class Wrong(Exception):
    """A feed isn't one, or its changes don't fit the rows."""


def lsn_of(text: str) -> int:
    high, low = text.split("/")
    return (int(high, 16) << 32) + int(low, 16)


def row_of(cells: list[Any]) -> Row:
    return tuple(bytes.fromhex(it["hex"]) if isinstance(it, dict) else it for it in cells)


def need(is_so: bool, what: str) -> None:
    if not is_so:
        raise Wrong(what)


class Told(NamedTuple):
    """A message: its commit's end, final LSN and xid, and its own LSN, prefix and content."""

    end: int
    final: int | None
    xid: int | None
    lsn: int
    prefix: str
    content: bytes

    @staticmethod
    def of(commit: dict[str, Any], it: dict[str, Any]) -> Told:
        final, content = commit["lsn"] and lsn_of(commit["lsn"]), it["content"]
        content = content.encode() if isinstance(content, str) else bytes.fromhex(content["hex"])
        commit_of = lsn_of(commit["end"]), final, commit["xid"]
        return Told(*commit_of, lsn_of(it["lsn"]), it["prefix"], content)


class Replay:
    """The rows at an LSN. `definitions` and `rows` are by OID; a row is there as often as it is
    counted."""

    def __init__(self, at: int = 0) -> None:
        self.at = at
        self.definitions: dict[int, dict[str, Any]] = {}
        self.rows: dict[int, Counter[Row]] = {}
        self.missed = self.changes = 0
        # of each message the commit's end and final LSN, its xid, and what the message has
        self.messages: list[Told] = []

    def begin(self, definition: dict[str, Any], rows: Counter[Row]) -> None:
        """Gives a table the rows that it has at the LSN."""
        self.definitions[definition["oid"]], self.rows[definition["oid"]] = definition, rows

    def describe(self, definition: dict[str, Any]) -> None:
        """A definition: the rows of another shape are carried by the names of the columns, and a
        new one is null."""
        oid = definition["oid"]
        old, rows = self.definitions.get(oid, definition), self.rows.get(oid, Counter())
        if [name for name, _, _ in old["columns"]] == [
            name for name, _, _ in definition["columns"]
        ]:
            # (each segment tells all definitions once more)
            self.begin(definition, rows)
            return
        places = {name: at for at, (name, _, _) in reversed(list(enumerate(old["columns"])))}
        chosen = [places.get(name) for name, _, _ in definition["columns"]]
        carried = Counter[Row]()
        for row, copies in rows.items():
            carried[tuple(None if at is None else row[at] for at in chosen)] += copies
        self.begin(definition, carried)

    def change(self, change: dict[str, Any]) -> None:
        rows, op = self.rows[change["oid"]], change["op"]
        if op == "t":
            rows.clear()
        elif op == "x":
            self.missed += 1
        else:
            before, after = change["before"], change["after"]
            need(
                (before is not None, after is not None)
                == {"c": (False, True), "u": (True, True), "d": (True, False)}[op],
                f"{change}",
            )
            if before is not None:
                need(rows[row_of(before)] > 0, f"the row before isn't there: {change}")
                rows[row_of(before)] -= 1
            if after is not None:
                rows[row_of(after)] += 1

    def commit(self, commit: dict[str, Any], body: bytes) -> None:
        """A commit that isn't above the LSN is passed over; the first one that is has to be the
        next."""
        end = lsn_of(commit["end"])
        if end <= self.at:
            return
        need(lsn_of(commit["prev"]) == self.at, f"{commit['end']} doesn't go on at {self.at:X}")
        lines, told, n = body.splitlines(), set[int](), 0
        for it in map(json.loads, lines):
            if it["op"] == "m":
                need(not told, f"{commit['end']}: a message behind a definition: {it}")
                self.messages.append(Told.of(commit, it))
                continue
            if it["op"] == "table":
                self.describe(it)
                told.add(it["oid"])
                continue
            need(it["oid"] in told and it["n"] == n, f"{commit['end']}: {it}")
            self.change(it)
            n += 1
        need(n == commit["changes"], f"{commit['end']} has {n} changes")
        self.at, self.changes = end, self.changes + n


def told_lines(text: bytes, start: int, body: bytes) -> bytes:
    """The lines of a commit, which begin at an offset of the segment, with the definitions that they
    name before them. A change gets the OID that its definition has."""
    lines, told, offset = list[bytes](), dict[int, bytes](), start
    for line in body.splitlines(keepends=True):
        it = definition = json.loads(line)
        named = line
        if it["op"] == "m":
            lines.append(line)
            offset += len(line)
            continue
        if it["op"] != "table":
            at = it["at"]
            need(HEAD + COMMIT <= at < offset, f"a definition isn't before its change: {it}")
            named = text[at : text.index(b"\n", at) + 1]
            definition = json.loads(named)
            is_one = definition["op"] == "table" and text[at - 1 : at] == b"\n"
            need(is_one, f"no definition stands at {at}: {it}")
        if told.get(definition["oid"]) != named:
            told[definition["oid"]] = named
            lines.append(named)
        if it["op"] != "table":
            lines.append(b'{"oid":%d,%b' % (definition["oid"], line[1:]))
        offset += len(line)
    return b"".join(lines)


def commits(path: Path) -> Iterator[tuple[dict[str, Any], bytes]]:
    """The commits of a segment, with their lines and the definitions that these name. What isn't all
    there is left."""
    text = path.read_bytes()
    at, last = HEAD, lsn_of(json.loads(text[:HEAD])["base"])
    need(last == int(path.name, 16), f"{path}: another base")
    while len(line := text[at : at + COMMIT]) == COMMIT:
        if 0 in line:
            return  # (the line of a long commit comes last)
        commit = json.loads(line)
        if "end" not in commit:
            need(at + COMMIT == len(text), f"{path}: lines after its end")
            return
        need(lsn_of(commit["prev"]) == last, f"{path}: {commit['end']} doesn't go on at {last:X}")
        body = text[at + COMMIT : at + COMMIT + commit["bytes"]]
        if len(body) < commit["bytes"]:
            return
        crc = zlib.crc32(line[: line.index(b',"crc":')] + body)
        need(crc == commit["crc"], f"{path}: {commit['end']} has the checksum {crc}")
        yield commit, told_lines(text, at + COMMIT, body)
        at, last = at + COMMIT + len(body), lsn_of(commit["end"])


def replay(folder: Path, state: Replay | None = None, until: int | None = None) -> Replay:
    """Replays all of a feed's folder, or up to an LSN."""
    state = state or Replay()
    for path in sorted(it for it in folder.iterdir() if it.is_file() and len(it.name) == 16):
        for commit, body in commits(path):
            if until is not None and lsn_of(commit["end"]) > until:
                return state
            state.commit(commit, body)
    return state
