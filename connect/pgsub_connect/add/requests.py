"""What a follower is asked for: tables to add, or whose rows are to go; and why not."""

import contextlib
from typing import Any, Protocol

from pgsub_feed.errors import Passing, Stopped, Unfit
from pgsub_feed.interruption import Check
from pgsub_feed.texts import counted

from ..copy.source import Source
from ..errors import ServerError
from ..server.catalog import Table
from ..server.publications import sizes_of
from ..stream.common import Common
from ..stream.filter_end import NO_ROOM
from ..stream.gate import CURE, TABLE
from ..stream.memory_limit import BufferLimits


class Stream(Protocol):
    """The follower, as far as tables are added, or rows repaired, by it."""

    def serve_server(self) -> None:
        """Keeps the server content during another wait. Raises where the end was asked for."""

    def attend(self) -> None:
        """Keeps server and filter content during another wait. Raises once the end is asked for."""

    def push(self, frames: bytes) -> None:
        """Gives the filter frames, and waits until it has room."""


class Publications(Protocol):
    """What is known of the publications, and what was found there."""

    def look_again(self, check: Check, position: int) -> bool:
        """Reads them on a connection of its own. Returns whether that was possible."""

    def show(self) -> None:
        """Tells what was found."""

    def keep(self) -> None:
        """Puts what was found on the disk, and tells it."""


class TooLarge(Exception):
    """A table has more than may be buffered, or than is read while commits may wait."""


def too_long(table: Table, size: int) -> str:
    """Why a table can't be added while commits wait for the follower, "" where it can."""
    if size <= TABLE:
        return ""
    return (
        f"{table.text()} has {size} bytes, and commits at the server would wait for the follower as"
        f" long as these are copied: {CURE}"
    )


def too_large(table: Table, size: int, most: int) -> str:
    return (
        f"{table.text()} has at least {size} bytes, and {most} may be buffered of a transaction:"
        " give the follower a --max-buffered above that, or copy anew"
    )


def too_roomy(table: Table, size: int, path: str, had: int) -> str:
    """Why a table is given up whose rows don't fit on the disk of open transactions."""
    return (
        f"its rows need about {counted(size, 'byte')} in {path}, whose disk has had {counted(had, 'byte')} for"
        f" them ({NO_ROOM.partition(': ')[2]}): make room there, and `pgsub-connect refresh --table {table.text()}`"
    )


# A table whose files are so many times what may be buffered is refused before anything is done.
FAR = 2


class Requests:
    """Notes what is asked for, unless something is known to be in the way."""

    def __init__(self, common: Common, store: str, limits: BufferLimits, stream: Stream) -> None:
        self.subscription, _, self.checkpoint, self.progress, self.remembered = common
        self.store, self.limits, self.stream = store, limits, stream

    def open(self, check: Check) -> Source:
        """Connects to the server. `check` is called as long as that is waited for."""
        return Source(self.subscription, self.store, self.checkpoint.known, check, "add")

    def take(self, asked: dict[str, Any]) -> str | None:
        """Takes a request for tables, by their OIDs. Returns why it is rejected."""
        adds, removes = asked.get("add"), asked.get("remove", [])
        for oids in (adds, removes):
            if not (isinstance(oids, list) and all(isinstance(it, int) for it in oids)):
                return "malformed"
        errors = self.rejections(adds or [], removes)
        if not errors:
            self.remembered.want(adds or [], removes)
        return "; ".join(errors) or None

    def rejections(self, adds: list[int], removes: list[int]) -> list[str]:
        """Why tables can't be added or rows removed, as far as the server can be asked now."""
        try:
            with contextlib.closing(self.open(self.stream.serve_server)) as source:
                errors = [text for oid in adds if (text := self.rejection(source, oid))]
                published = {it.oid for it in source.tables}
        except ServerError as error:
            return [str(error)] if error.is_lasting() else []
        except (Passing, Unfit) as error:
            return [str(error)]
        except Stopped:
            return ["it is about to end"]
        left = [it for it in removes if it in published or not self.remembered.described(it)]
        return errors + [f"table {oid} is published, or isn't known" for oid in left]

    def rejection(self, source: Source, oid: int) -> str:
        """Why a table can't be added, "" where nothing is known to be in the way."""
        table = next((it for it in source.tables if it.oid == oid), None)
        if table is None:
            return f"table {oid} isn't published"
        if not self.checkpoint.has_room_for(oid):
            return f"{table.text()}: the checkpoint has no room for it"
        size = sizes_of(source.plain, [table]).get(oid, 0)
        most = self.limits.max_buffered
        if most is not None and size > FAR * most:
            return too_large(table, size, most)
        return too_long(table, size) if self.progress.server.is_waited_for else ""
