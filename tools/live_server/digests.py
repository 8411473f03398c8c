"""Digests of the rows of large tables, at a server and in its copies: they don't depend on the rows'
order, and take no memory."""

from __future__ import annotations

import dataclasses
import hashlib
import json
import subprocess
from collections.abc import Iterable
from pathlib import Path

from .cluster import Cluster
from .errors import Failed
from .feeds import columns_of
from .rows import Row, quoted
from .sessions import Session


@dataclasses.dataclass
class Digest:
    """How many rows there are, and the sum of their digests, which doesn't depend on their order.
    (A server finds them by itself: no value has one of these two characters.)"""

    rows: int = 0
    total: int = 0

    def add(self, row: Row, copies: int = 1) -> None:
        line = "|".join("~" if it is None else it for it in row)
        self.rows += copies
        self.total += copies * int(hashlib.md5(line.encode()).hexdigest()[:15], 16)


# By the name of a table.
Digests = dict[str, Digest]


def digests_of(server: Cluster, tables: Iterable[str], database: str = "shop") -> Digests:
    """Those of a server's tables."""
    with server.connect(database) as session:
        return {it: digest_of(session, it) for it in tables}


def digest_of(session: Session, table: str) -> Digest:
    names = [quoted(name) for name, _ in columns_of(session, table)]
    # (as the server sends it: `::text` cuts blanks off)
    cells = ", ".join(f"CASE WHEN {it} IS NULL THEN '~' ELSE concat({it}) END" for it in names)
    digest = f"('x' || left(md5(concat_ws('|', {cells})), 15))::bit(60)::bigint"
    (values,) = session.rows(f"SELECT count(*), coalesce(sum({digest}), 0) FROM {table}")
    return Digest(*(int(it or 0) for it in values))


def digests_of_store(program: Path, store: Path) -> Digests:
    """Those of the rows that the program dumps, line by line."""
    found: Digests = {}
    words = [str(program), "dump", "--store", str(store)]
    with subprocess.Popen(words, stdout=subprocess.PIPE) as dump:
        assert dump.stdout
        for line in dump.stdout:
            if line.startswith(b"["):
                _, table, values, copies = json.loads(line)
                found.setdefault(table, Digest()).add(tuple(values), copies)
    if dump.returncode:
        raise Failed(f"dump: status {dump.returncode}")
    return found


def compare(server: Digests, copy: Digests, what: str) -> int:
    """Fails at the first table whose digests differ. Returns how many rows there are."""
    for table, expected in server.items():
        found = copy.get(table, Digest())
        if found != expected:
            raise Failed(
                f"{what}: {table} has {found.rows} rows in place of {expected.rows}, and another digest"
            )
    return sum(it.rows for it in server.values())
