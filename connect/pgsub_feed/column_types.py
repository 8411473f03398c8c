"""What a feed says of its tables beside their definitions, as the follower has found it in the
server's catalog: the names of types, the labels of enumerations, what domains are of, which columns
are never null, and primary keys.

They are in the file `FOLDER/types`, which is replaced as a whole: a head, and a line for each table
and each time from which on it was found so.

    {"types":1,"lsn":"0/1959000"}
    {"table":16384,"from":"0/1958B68","primary":["id"],"columns":[{"name":"m","oid":16390,
     "modifier":-1,"type":"public.mood","not_null":false,"labels":["sad","ok"]},..]}

| Field | Means |
|---|---|
| `lsn` | of commits up to there all is known: the follower has looked since |
| `table`, `from` | the OID of a table, and the LSN of the look that found it so |
| `until` | that of a look by which it wasn't published any more |
| `primary` | the columns of its primary key, in the key's order; none where that is deferrable |
| `name`, `oid`, `modifier` | a column, as its definition has it |
| `type` | as `format_type` prints it, with the schema of any that isn't PostgreSQL's own |
| `not_null` | whether it is never null |
| `labels` | those of an enumeration, in order, or of the one that an array's elements are |
| `base` | what a domain is of at the end: the type's name, OID and modifier |

A commit with a definition that isn't there yet is given once the follower has looked.
"""

import os
import time
from collections.abc import Callable
from typing import Any, NamedTuple

from . import json_texts, log
from .interruption import Check, never
from .json_values import form_of
from .reader.commits import Commit
from .relation import BaseType, ColumnType, Relation, TableTypes
from .texts import parse_lsn

FORMAT, TYPES = 1, "types"
# For how long a look at the server is waited for, in seconds, and how often it is asked for.
PATIENCE, OFTEN = 20.0, 0.05
# Which file it is, when it was written, and its length.
Stamp = tuple[int, int, int]
# By the names of columns.
Written = dict[str, Any]
NAMES, BASE = form_of(tuple[str, ...]), form_of(BaseType)


# A column's name, type and modifier.
Known = tuple[str, int, int]


class Entry(NamedTuple):
    """What is known of a table from an LSN on, of these columns."""

    since: int
    known: frozenset[Known]
    types: TableTypes


def column_of(said: Written) -> ColumnType:
    name, not_null = json_texts.text_of(said["type"]), json_texts.flag_of(said["not_null"])
    base = BASE.read(said["base"]) if "base" in said else None
    return ColumnType(name, not_null, NAMES.read(said.get("labels", [])), base)


def entry_of(said: Written) -> Entry:
    """A line of a table. An Unreadable or a KeyError says that it is none."""
    known, columns = set[Known](), dict[str, ColumnType]()
    for it in map(json_texts.object_of, json_texts.list_of(said["columns"])):
        name = json_texts.text_of(it["name"])
        modifier = json_texts.signed_of(it["modifier"])
        known.add((name, json_texts.oid_of(it["oid"]), modifier))
        columns[name] = column_of(it)
    types = TableTypes(columns, NAMES.read(said["primary"]))
    return Entry(json_texts.lsn_of(said["from"]), frozenset(known), types)


class KnownTypes:
    """Those that such a file says. `lsn`: up to which commit its follower has looked."""

    def __init__(self) -> None:
        self.lsn = 0
        self.entries = dict[int, list[Entry]]()
        # by OID: a definition, and what is known of it from an LSN on
        self.newest = dict[int, tuple[Relation, int, TableTypes]]()

    def take(self, content: bytes) -> None:
        """Takes what a file says. A ValueError or a KeyError says that it is none."""
        first, *lines = content.splitlines()
        head = json_texts.object_of(json_texts.parsed(first))
        if head.get("types") != FORMAT:
            raise json_texts.Unreadable("of another version of this program")
        entries = dict[int, list[Entry]]()
        for line in lines:
            said = json_texts.object_of(json_texts.parsed(line))
            # (a later version may have lines of other kinds)
            if "table" in said:
                entries.setdefault(json_texts.oid_of(said["table"]), []).append(entry_of(said))
        self.lsn, self.entries = parse_lsn(json_texts.text_of(head["lsn"])), entries
        self.newest.clear()

    def exact(self, relation: Relation, lsn: int) -> TableTypes | None:
        """What was known last at an LSN of a table with these columns, or first after it."""
        known = self.newest.get(relation.oid)
        if known and known[0] is relation and known[1] <= lsn:
            return known[2]
        columns = known_of(relation)
        entries = [it for it in self.entries.get(relation.oid, ()) if it.known == columns]
        found = at(entries, lsn)
        if found and entries[-1].since <= lsn:
            self.newest[relation.oid] = relation, lsn, found
        return found

    def nearest(self, relation: Relation, lsn: int) -> TableTypes | None:
        """The same of these columns and more: the catalog may be newer, a publication smaller."""
        columns = known_of(relation)
        return at([it for it in self.entries.get(relation.oid, ()) if it.known >= columns], lsn)

    def of(self, relation: Relation, commit: Commit) -> TableTypes | None:
        """What is known of a table where a commit changes it."""
        lsn = reached(commit)
        return self.exact(relation, lsn) or self.nearest(relation, lsn)


def known_of(relation: Relation) -> set[Known]:
    return {(it.name, it.type_oid, it.modifier) for it in relation.shape.columns}


def at(entries: list[Entry], lsn: int) -> TableTypes | None:
    before = [it for it in entries if it.since <= lsn]
    found = before[-1:] or entries[:1]
    return found[0].types if found else None


def reached(commit: Commit) -> int:
    """The LSN by which a commit's tables are described; of first rows, their own."""
    return (commit.lsn or 0) if commit.base is not None else commit.end


def comes(is_there: Callable[[], bool], check: Check) -> bool:
    """Waits until something is so. Returns false where that takes too long."""
    end = time.monotonic() + PATIENCE
    while not is_there():
        check()
        if time.monotonic() > end:
            return False
        time.sleep(OFTEN)
    return True


class CatalogFile:
    """A file that a follower replaces as a whole once it has looked at the server's catalog.

    `KIND`: what it is one of; `WITHOUT`: what is so where it can't be read."""

    KIND, WITHOUT = "", ""

    def __init__(self, file: str) -> None:
        self.file = file
        # up to which commit its follower has looked
        self.lsn = 0
        self.stamp: Stamp | None = None
        # what the file was when a look was waited for in vain, and why it can't be read
        self.waited: Stamp | None = None
        self.told = ""

    def read(self) -> None:
        """Reads the file. A ValueError or a KeyError says that it is none."""
        raise NotImplementedError

    def look(self) -> None:
        """Reads the file, where it was written anew."""
        try:
            it = os.stat(self.file)
            if (stamp := (it.st_ino, it.st_mtime_ns, it.st_size)) != self.stamp:
                self.stamp = stamp
                self.read()
        except FileNotFoundError:
            # (an earlier version of the follower may not write it)
            self.stamp = None
        except OSError as error:
            # (another account may be denied)
            self.tell(str(error.strerror))
        except (KeyError, ValueError) as error:
            self.tell(f"not a file of {self.KIND}: {error}")

    def wait_for(self, is_known: Callable[[], bool], lsn: int, check: Check) -> None:
        """Waits until something is known, as long as the server wasn't looked at after this LSN.
        Where no follower looks any more, that is waited for once."""

        def is_over() -> bool:
            self.look()
            return is_known() or self.lsn >= lsn or self.stamp in (None, self.waited)

        if not comes(is_over, check):
            self.waited = self.stamp

    def tell(self, text: str) -> None:
        """Tells once why nothing more is known, which nobody waits for."""
        self.waited = self.stamp
        if text != self.told:
            self.told = text
            log.warning(f"{self.file}: {text}: {self.WITHOUT}")


class FeedTypes(KnownTypes, CatalogFile):
    """Those of a feed's folder."""

    KIND, WITHOUT = "types", "types and keys are those of the definitions alone"

    def __init__(self, folder: str, check: Check = never) -> None:
        CatalogFile.__init__(self, os.path.join(folder, TYPES))
        KnownTypes.__init__(self)
        self.check, self.text = check, b""

    def read(self) -> None:
        content = json_texts.read_plain(self.file, json_texts.LARGEST)
        self.take(content)
        self.text = content

    def of(self, relation: Relation, commit: Commit) -> TableTypes | None:
        """The same, once the server was looked at after that commit, or the table is known."""
        lsn = reached(commit)
        self.wait_for(lambda: self.exact(relation, lsn) is not None, lsn, self.check)
        return super().of(relation, commit)
