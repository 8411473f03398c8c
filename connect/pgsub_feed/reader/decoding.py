"""Reads the lines of commits into what they say.

Most are changes of texts and nulls, of definitions that are known: the rows of all of them are
tested together. Where a line is anything else each is read by itself, and told where it is wrong.
"""

import itertools
import operator
from collections.abc import Callable, Sequence
from typing import Any, NamedTuple, NoReturn

from ..errors import COUNTS, LINE, UNDESCRIBED, WIDTH, Damaged
from ..json_texts import GREATEST, lsn_of, text_of, whole_of
from ..relation import Relation
from .commits import Change, Commit, Message, Missed, Part, TableLine, Unsent
from .lines import (
    DEFINITION,
    SENT,
    as_change,
    parsed,
    read_cell,
    read_relation,
    read_whole,
    shown,
)

# How many definitions are kept read.
MOST_DEFINITIONS = 10000
# The op of a message.
OF_MESSAGE = "m"
# How a cell begins that is no text.
BINARY = b'{"hex":'
are_sent = SENT.issuperset
are_lists, chained = {list}.issuperset, itertools.chain.from_iterable
# What the line of a change has, but that of one that found no row.
of_change = operator.itemgetter("op", "at", "n", "before", "after")
# Which rows each change lacks: the one before it, and the one after it.
NO_ROWS = {"c": (True, False), "u": (False, False), "d": (False, True), "t": (True, True)}


class Place(NamedTuple):
    """A definition that changes name, its OID and how many columns it has."""

    table: TableLine
    relation: Relation
    oid: int
    width: int


class Decoder:
    """Reads the lines of commits: the messages first. Before the first change of a relation in a
    commit it gives the definition, wherever that stands."""

    def __init__(self) -> None:
        # definitions by their lines, and those of the segment by the offsets that changes name
        self.known: dict[bytes, TableLine] = {}
        self.places: dict[int, Place] = {}
        # whether cells came that are no texts: then it is looked for others first
        self.has_binary = False

    def begin(
        self,
        commit: Commit,
        fault: Callable[[int, int, str], Damaged],
        find: Callable[[int], bytes | None],
    ) -> None:
        """Begins a commit. `fault` makes the error of a number, for the line at an offset of it;
        `find` reads the line at an offset of the segment."""
        self.commit, self.fault, self.find_line = commit, fault, find
        self.described: dict[int, TableLine] = {}
        self.n = self.messages = self.offset = 0

    def go_on(self, offset: int, changes: int, messages: int) -> None:
        """Goes on at a line at an offset of the commit, behind so many changes and messages."""
        self.offset, self.n, self.messages = offset, changes, messages

    def finish(self) -> None:
        if self.n != self.commit.changes:
            told = f"the commit has {self.n} changes, and its line says {self.commit.changes}"
            raise self.fault(COUNTS, self.offset, told)
        self.limit()

    def limit(self) -> None:
        """Forgets definitions where there are too many. (Amid a commit none goes: a reader elsewhere
        couldn't find it.)"""
        if len(self.places) >= MOST_DEFINITIONS:
            self.forget()

    def read(self, lines: Sequence[bytes]) -> list[Part]:
        """What the next lines say, which have lost their ends."""
        return self.read_text(b"[" + b",".join(lines) + b"]", len(lines), lambda: lines)

    def read_content(self, content: bytes) -> list[Part]:
        """The same of lines with their ends."""
        # (no line has one in it: those of a text are escaped)
        text, count = content[:-1].replace(b"\n", b","), content.count(b"\n")
        return self.read_text(b"[" + text + b"]", count, lambda: content.split(b"\n")[:-1])

    def read_text(
        self, text: bytes, count: int, lines: Callable[[], Sequence[bytes]]
    ) -> list[Part]:
        """The same of so many lines, which a text has as a list."""
        try:
            objects = parsed(text)
            if len(objects) != count:
                raise ValueError
        except ValueError:
            self.find(lines())
        try:
            if self.has_binary and BINARY in text:
                raise ValueError
            parts = self.plain(objects)
        except (ValueError, KeyError, TypeError):
            self.has_binary = self.has_binary or BINARY in text
            return self.read_each(lines(), objects)
        self.offset += len(text) - 1 if count else 0
        return parts

    def plain(self, objects: Sequence[Any]) -> list[Part]:
        """What lines say, each of which is an insert, an update or a delete of texts and nulls, of a
        definition that is known. An error says that one isn't, and nothing was read."""
        # (a call of `list[Part]` takes as long as a line)
        parts: list[Part] = []
        rows: list[Any] = []
        n, places, described = self.n, self.places, self.described.copy()
        for op, at, told, before, after in map(of_change, objects):
            table, relation, oid, width = places[at]
            if described.get(oid) is not table:
                described[oid] = table
                parts.append(table)
            if op == "u":
                is_whole = len(before) == len(after) == width
                rows += before, after
            elif op == "c":
                is_whole = before is None and len(after) == width
                rows.append(after)
            else:
                is_whole = op == "d" and after is None and len(before) == width
                rows.append(before)
            if not is_whole or told != n or type(told) is not int:
                raise ValueError
            n += 1
            parts.append(as_change((op, relation, told, before, after)))
        if not are_lists(map(type, rows)) or not are_sent(map(type, chained(rows))):
            raise ValueError
        self.n, self.described = n, described
        return parts

    def read_each(self, lines: Sequence[bytes], objects: Sequence[Any]) -> list[Part]:
        """The same of any lines."""
        parts, described = list[Part](), self.described
        for line, found in zip(lines, objects, strict=True):
            try:
                op = found["op"]
                if op == OF_MESSAGE:
                    parts.append(self.message(found))
                else:
                    is_table = op == "table"
                    table = self.table(line, found) if is_table else self.table_of(found)
                    oid = table.relation.oid
                    if described.get(oid) is not table:
                        described[oid] = table
                        parts.append(table)
                    if not is_table:
                        parts.append(self.change(table.relation, found))
            except (ValueError, KeyError, TypeError):
                raise self.fault(
                    LINE, self.offset, f"this is no line of a commit: {shown(line)}"
                ) from None
            self.offset += len(line) + 1
        return parts

    def find(self, lines: Sequence[bytes]) -> NoReturn:
        """Raises for the first line that is no JSON."""
        for line in lines:
            try:
                parsed(line)
            except ValueError:
                break
            self.offset += len(line) + 1
        raise self.fault(LINE, self.offset, f"this is no line of a commit: {shown(line)}")

    def message(self, found: dict[str, Any]) -> Message:
        """A message, which stands before all definitions and changes."""
        content = read_cell(found["content"])
        if self.described or content is None or isinstance(content, Unsent):
            raise ValueError
        n, self.messages = self.messages, self.messages + 1
        return Message(lsn_of(found["lsn"]), text_of(found["prefix"]), content, n)

    def table_of(self, found: dict[str, Any]) -> TableLine:
        """The definition of a change."""
        at = found["at"]
        place = self.places.get(at)
        table = place.table if place else self.read_table(whole_of(at))
        if table is None:
            why = f"no definition stands at {at}, where the change says so"
            raise self.fault(UNDESCRIBED, self.offset, why)
        return table

    def read_table(self, at: int) -> TableLine | None:
        """The definition at an offset of the segment, None where there is none."""
        line = self.find_line(at)
        if line is None or not line.startswith(DEFINITION):
            return None
        table = self.defined(line)
        self.tell(at, table)
        return table

    def defined(self, line: bytes) -> TableLine:
        return self.known.get(line) or self.table(line, parsed(line))

    def tell(self, at: int, table: TableLine) -> None:
        """Says which definition stands at an offset of the segment."""
        relation = table.relation
        self.places[at] = Place(table, relation, relation.oid, len(relation.shape.columns))

    def forget(self) -> None:
        """Goes on in another segment."""
        self.places.clear()

    def change(self, relation: Relation, found: dict[str, Any]) -> Change | Missed:
        op, n, told = found["op"], self.n, found["n"]
        if told != n or type(told) is not int:
            whole_of(told, -GREATEST)
            why = f"the change has number {told}, and is number {n} of its commit"
            raise self.fault(COUNTS, self.offset, why)
        self.n = n + 1
        if op == "x":
            return self.missed(relation, n, found)
        before, after = found["before"], found["after"]
        if NO_ROWS[op] != (before is None, after is None):
            raise ValueError
        width = len(relation.shape.columns)
        for row in (before, after):
            if row is not None and (type(row) is not list or len(row) != width):
                self.refuse(row, width)
        if before is not None and not are_sent(map(type, before)):
            before = read_whole(before)
        if after is not None and not are_sent(map(type, after)):
            after = read_whole(after)
        return as_change((op, relation, n, before, after))

    def table(self, line: bytes, found: dict[str, Any]) -> TableLine:
        table = self.known.get(line)
        if table is None:
            table = TableLine(read_relation(found))
            if len(self.known) >= MOST_DEFINITIONS:
                self.known.clear()
            self.known[line] = table
        return table

    def refuse(self, row: Any, width: int) -> NoReturn:
        """Raises for what is no row of so many cells."""
        if type(row) is not list:
            raise ValueError
        told = f"a row of {len(row)} cells, where there are {width} columns"
        raise self.fault(WIDTH, self.offset, told)

    def missed(self, relation: Relation, n: int, found: dict[str, Any]) -> Missed:
        sent, old, new = found["sent"], found["old"], found["new"]
        kind, cells = ("", None) if old is None else old
        if (
            sent not in ("u", "d")
            or kind not in ("", "K", "O")
            or (sent == "u") != (new is not None)
        ):
            raise ValueError
        width = len(relation.shape.columns)
        rows = [None if it is None else [read_cell(cell) for cell in it] for it in (cells, new)]
        for row in rows:
            if row is not None and len(row) != width:
                self.refuse(row, width)
        return Missed(relation, n, sent, kind, *rows)
