"""SQL that takes commits of a feed back at the publisher, in one transaction, and what they have
made of each row.

It restores each row that they have changed, whatever became of it on the way. A row has to be as
the commits left it: where somebody has changed one since it raises an error, and nothing at all is
taken back. So it does where a row can't be as it was.
"""

import contextlib
import sqlite3
from collections.abc import Callable, Iterable, Iterator

from .. import log
from ..errors import Passing, Unfit
from ..interruption import Check
from ..reader.commits import XID, Cell, Change, Commit, Missed
from ..reader.folder import read_confirmed
from ..reader.following import Chosen
from ..reader.polling import Poll
from ..reader.segments import Between, Reader
from ..tables.schema import full_name
from ..tables.sqlite_files import failed
from ..texts import PRINTING, identifier, literal, lsn_text
from . import restore_sql
from .net import Changed, File, Net, Row

# These say how a value is printed and a constant read, and make hidden rows an error.
SETTLED = {**PRINTING, "xmloption": "content", "array_nulls": "on", "row_security": "off"}
# Types whose values are looked up in an index by `=`: bool, bytea, "char", name, int8, int2, int4,
# text, oid, float4, float8, macaddr, inet, bpchar, varchar, date, time, timestamp, timestamptz,
# interval, timetz, bit, varbit, numeric, uuid, pg_lsn, jsonb. The operator of another type may be
# in any schema, or be that of a type which reads the constant in another way.
COMPARED = {
    *(16, 17, 18, 19, 20, 21, 23, 25, 26, 700, 701, 829, 869, 1042, 1043, 1082, 1083, 1114, 1184),
    *(1186, 1266, 1560, 1562, 1700, 2950, 3220, 3802),
}
# What an editor or a terminal may make another character of.
CONTROLS = {it: f"\\x{it:02x}" for it in (*range(1, 32), 127)}
CONTROLS |= {it: f"\\u{it:04x}" for it in range(0x80, 0xA0)}
# How many characters the rows of one command have, but for the last of them.
MOST = 200000
BEGIN = """\
-- Takes back the commits after {begin} up to {end}: psql -X -v ON_ERROR_STOP=1 -f FILE
BEGIN ISOLATION LEVEL READ COMMITTED;
SET LOCAL client_encoding = 'UTF8';
CREATE TEMPORARY TABLE pgsub_settings ON COMMIT DROP AS
  SELECT name, pg_catalog.current_setting(name) AS theirs, ours FROM (VALUES
  {settings}
  ) it (name, ours);
"""
SETTLE = f"DO $pgsub$ BEGIN {restore_sql.TO_OURS} END $pgsub$;\n"
END = f"DO $pgsub$ BEGIN {restore_sql.TO_THEIRS} END $pgsub$;\nCOMMIT;\n"
STEPS = (
    *(restore_sql.CHECK, restore_sql.DESCRIBE, restore_sql.READ, restore_sql.FIND),
    *(restore_sql.REPLACE, restore_sql.REFERENCES, restore_sql.CHANGE, restore_sql.LOOK),
)


def quoted(text: str) -> str:
    """A constant of SQL, in which control characters are escaped."""
    plain = literal(text).strip()
    escaped = plain.translate(CONTROLS)
    return escaped if escaped == plain or escaped.startswith("E") else f"E{escaped}"


def constant(cell: Cell) -> str:
    assert not isinstance(cell, bytes)
    return "NULL" if cell is None else quoted(cell)


def array(cells: Iterable[str]) -> str:
    """An array of these constants."""
    text = ", ".join(cells)
    return f"ARRAY[{text}]" if text else "'{}'"


def row_constant(row: Row | None) -> str:
    return "NULL" if row is None else array(map(constant, row))


def table_line(net: Net) -> str:
    """What `pgsub_tables` has of a table at first."""
    relation = net.relation
    columns = relation.shape.columns
    equal = [at for at in net.key if columns[at].type_oid in COMPARED]
    told = quoted(".".join(full_name(relation)))
    name = quoted(".".join(map(identifier, full_name(relation))))
    keys = ", ".join(array(str(at + 1) for at in some) for some in (net.key, equal))
    return f"({net.t}, {told}, {name}, {array(quoted(it.name) for it in columns)}, {keys})"


def row_line(t: int, it: Changed) -> str:
    return f"{t}, {quoted(it.told)}, {row_constant(it.was)}, {row_constant(it.now)}"


class Undoing:
    """Collects what commits have made of rows, and makes the SQL that takes it back."""

    def __init__(self, file: File, chosen: Chosen, begin: int, end: int) -> None:
        self.file, self.chosen, self.begin, self.end = file, chosen, begin, end
        self.nets: dict[int, Net] = {}

    def take(self, reader: Reader, commit: Commit) -> None:
        for it in self.chosen.events(reader.parts(commit)):
            if isinstance(it, Missed):
                what = f"{commit.text()}:{it.n}: a change of {it.relation.text()}"
                log.warning(f"{what} isn't taken back: the copy didn't have its row")
            elif isinstance(it, Change):
                self.change(commit, it)

    def change(self, commit: Commit, it: Change) -> None:
        relation, where = it.relation, commit.text()
        if it.op == "t":
            text = "and the feed doesn't have the rows that were in it"
            raise Unfit(f"{where} truncates {relation.text()}, {text}: {self.apart(commit)}")
        if commit.xid == XID:
            text = "were copied here, by no commit of the server's"
            raise Unfit(f"{where}: rows of {relation.text()} {text}: {self.apart(commit)}")
        if bytes in map(type, (*(it.before or ()), *(it.after or ()))):
            text = "a value was sent in binary format, which SQL has no constant for"
            raise Unfit(f"{where}: {relation.text()}: {text}: follow without --binary")
        net = self.nets.get(relation.oid)
        if net is None:
            net = self.nets[relation.oid] = Net(self.file, len(self.nets) + 1, relation)
        if net.relation is not relation and not net.describe(relation):
            text = f"{relation.text()} was altered since the commits before"
            raise Unfit(f"{where}: {text}: take back only those after {lsn_text(commit.prev)}")
        net.take(it, f"{where}:{it.n}, {'.'.join(full_name(relation))}")

    def apart(self, commit: Commit) -> str:
        """What to do where a commit can't be taken back."""
        some = [f"those after {commit.text()}"] if commit.end < self.end else []
        some += [f"those up to {lsn_text(commit.prev)}"] if commit.prev > self.begin else []
        text = "take back only " + ", and then ".join(some)
        return text if some else "leave its table out, by --table for the others"

    def texts(self) -> Iterator[str]:
        """The SQL."""
        some = (f"({literal(name)}, {literal(value)})" for name, value in SETTLED.items())
        settings = ",\n  ".join(some)
        begin, end = lsn_text(self.begin), lsn_text(self.end)
        yield BEGIN.format(begin=begin, end=end, settings=settings)
        yield SETTLE + restore_sql.TABLES
        nets = list(self.nets.values())
        for net in nets:
            has_any = next(net.changed(), None) is not None
            yield f"INSERT INTO pgsub_tables VALUES {table_line(net)};\n" if has_any else ""
        yield from commands(row_line(net.t, it) for net in nets for it in net.changed())
        yield from (*STEPS, END)


def commands(lines: Iterable[str]) -> Iterator[str]:
    """The commands that have the rows."""
    front = "INSERT INTO pgsub_rows (n, t, told, was, now) VALUES\n  "
    between, size = ",\n  ", 0
    for n, line in enumerate(lines, 1):
        yield f"{between if size else front}({n}, {line})"
        size = size + len(line) if size + len(line) < MOST else 0
        yield "" if size else ";\n"
    yield ";\n" if size else ""


def undo(
    reader: Reader, end: int, chosen: Chosen, check: Check, put: Callable[[bytes], None]
) -> None:
    """Prints the SQL that takes the commits up to an LSN back."""
    try:
        with contextlib.closing(File()) as file:
            undoing = Undoing(file, chosen, reader.at or 0, end)
            collect(undoing, reader, check)
            for text in undoing.texts():
                put(text.encode())
    except sqlite3.Error as error:
        raise failed(error, "the temporary file for rows, which lies where TMPDIR says") from None


def collect(undoing: Undoing, reader: Reader, check: Check) -> None:
    """Reads the commits. Raises where they aren't there, or where others may still come."""
    begin, end, at = undoing.begin, undoing.end, undoing.begin
    # (before the commits are looked at: all up to there are among these)
    confirmed = read_confirmed(reader.folder) or 0
    try:
        for commit in Poll(reader, False, check).commits():
            if commit.end > end:
                confirmed = end
                break
            check()
            at = commit.end
            undoing.take(reader, commit)
    except Between as it:
        text = f"no commit ends at {lsn_text(begin)}: take back from {it.begin} or {it.end} on"
        raise Unfit(f"{reader.folder}: {text}") from None
    if at < end and confirmed < end:
        # (what they have done would stay)
        text = f"the feed has reached {lsn_text(max(at, confirmed))}, and {lsn_text(end)} not yet"
        raise Passing(f"{reader.folder}: {text}")
    if at == begin:
        text = f"no commit ends up to {lsn_text(end)} after {lsn_text(begin)}"
        raise Unfit(f"{reader.folder}: {text}")
    if unseen := undoing.chosen.unseen:
        text = f"no commit after {lsn_text(begin)} up to {lsn_text(end)} has such a table"
        raise Unfit(f"--table {min(unseen)}: {text}")
