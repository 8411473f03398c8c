"""The messages of a commit: one of each logical message and each change, and a last one.

| Message | Its id | Its subject | Says |
|---|---|---|---|
| a row of a base | `0/500:base:5c0f1a9e:7` | `pgsub.public.stock` | as a change, with the op `r` |
| a logical message | `0/600:m0` | `pgsub.message` | `end`, `n`, its number among these, `op`, `lsn`, `prefix` and `content` |
| a change | `0/600:0` | `pgsub.public.stock` | `end`, `n`, `op`, `schema`, `table`, `oid`, and the rows `before` and `after` |
| the last one | `0/600:commit` | `pgsub.commit` | what the feed has of the commit, and what is kept of which feed; of a base, how many `rows` it has |

An id is that of one message for ever, since a stream takes none twice within some minutes, whatever
has become of the first. So a base that is begun anew has another number, `5c0f1a9e`. As in the feed
`end` is where a commit ends, and `lsn` its final LSN.
"""

import json
import re
from typing import Any, NamedTuple

from ..formats.keys import content_of, entry, subject
from ..json_texts import compact, lsn_of, object_of, parsed, whole_of
from ..reader.commits import Commit, Event, Message
from ..texts import lsn_text, parse_lsn
from .engine import read_about

# (an earlier version of this program gave bases no numbers)
ID = re.compile(
    r"([0-9A-F]+/[0-9A-F]+):(?:(commit)|(base:(?:[0-9a-f]{8}:)?[0-9]+)|(m?)([0-9]{1,18}))"
)
# What the subjects of these have in the place of a table.
COMMIT, MESSAGE = "commit", "message"
# Where a message is in its commit: whether it is of a change, and the number among such.
Place = tuple[bool, int]
FIRST: Place = (False, -1)


class Said(NamedTuple):
    """A message: its subject, its id, its payload and what it is of."""

    subject: str
    id: str
    payload: bytes
    about: str


class Read(NamedTuple):
    """What a message's id says: its LSN and where it is there; None of the last one, `FIRST` of one
    of a base."""

    lsn: int
    place: Place | None


def read_id(text: str) -> Read | None:
    """None where it isn't one of a sink."""
    found = ID.fullmatch(text)
    if found is None:
        return None
    lsn, commit, base, kind, n = found.groups()
    try:
        return Read(parse_lsn(lsn), None if commit else FIRST if base else (not kind, int(n)))
    except ValueError:
        return None


def place_of(it: Event) -> Place:
    return not isinstance(it, Message), it.n


def message_of(stream: str, commit: Commit, it: Event, front: str = "") -> Said:
    """That of a logical message, or of a change. `front`: what its id has before the number."""
    if isinstance(it, Message):
        where: dict[str, object] = {
            "end": commit.text(),
            "n": it.n,
            "op": "m",
            "lsn": lsn_text(it.lsn),
        }
        payload = compact(where | {"prefix": it.prefix, "content": content_of(it)}).encode()
        about = f"the message {it.n}, {it.prefix!r},"
        return Said(f"{stream}.{MESSAGE}", f"{commit.text()}:m{it.n}", payload, about)
    relation, told = it.relation, entry(it)
    fields = {
        "end": f'"{commit.text()}"',
        "n": str(it.n),
        "op": f'"{told.pop("op")}"',
        "schema": json.dumps(relation.namespace or "pg_catalog"),
        "table": json.dumps(relation.name),
        **told,
    }
    body = ",".join(f'"{name}":{text}' for name, text in fields.items())
    to, id = subject(stream, relation.namespace, relation.name), f"{commit.text()}:{front}{it.n}"
    return Said(to, id, f"{{{body}}}".encode(), f"a change of {relation.text()}")


def last_message(
    stream: str, commit: Commit, about: dict[str, Any], rows: int | None = None
) -> Said:
    """The last message of a commit, or of a base with so many rows."""
    told = {
        "end": commit.text(),
        "prev": lsn_text(commit.prev),
        "changes": commit.changes,
        "lsn": None if commit.lsn is None else lsn_text(commit.lsn),
        "xid": commit.xid,
        "ts_us": commit.ts_us,
        **({} if rows is None else {"rows": rows}),
        **about,
    }
    return Said(
        f"{stream}.{COMMIT}", f"{commit.text()}:{COMMIT}", compact(told).encode(), "the commit"
    )


class Last(NamedTuple):
    """What a last message says: its LSN, what is kept of which feed, and how many rows a base has;
    None where it isn't of one."""

    end: int
    about: dict[str, Any]
    rows: int | None


def read_last(data: bytes) -> Last:
    """A ValueError says that it is none."""
    told = object_of(parsed(data))
    rows = None if told.get("rows") is None else whole_of(told["rows"])
    return Last(lsn_of(told.get("end")), read_about(told), rows)
