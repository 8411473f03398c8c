"""Copies of the store for readers: a filter that runs has the store itself open alone."""

import contextlib
import os
import sqlite3
import threading
import time
from collections.abc import Callable
from typing import Any

from pgsub_feed import log
from pgsub_feed.errors import FileError, Stopped
from pgsub_feed.files import LOG, OF_FILE, copy, meant, remove, sync_folder
from pgsub_feed.interruption import never
from pgsub_feed.json_texts import Unreadable, list_of, lsn_of, oid_of
from pgsub_feed.ownership import real
from pgsub_feed.texts import lsn_text

from ..store.file import NEW, fold, position_in
from ..stream.gate import too_large_to_copy
from ..stream.hold import LONGEST, Hold
from .request_socket import Client, RequestSocket

# How long a copy in the making is waited for until a sign of life is given, in seconds.
STEP = 0.5


class Snapshots:
    """Copies a store to another file: each so many seconds, when a signal asks for it, and when a
    request does.

    A request to copy names a file in the store's own folder. One to hold is for a copy at one LSN,
    as the module `stream.hold` says, and where it has `repair` the stream stays held, in a session
    of whole transactions, so that rows may be repaired. One to add asks for no copy: it has the
    OIDs of tables to add, and as `remove` those of which the rows are to go.
    """

    def __init__(
        self, store: str, requests: RequestSocket, path: str | None, every: float, mode: int = 0o600
    ) -> None:
        self.store, self.requests, self.path = store, requests, path
        self.every, self.mode = every, mode
        self.asked = False
        self.next = time.monotonic()
        self.last: int | None = None
        # who has asked for a copy, or has the stream held; the file of a copy at any time
        self.client: Client | None = None
        self.wanted: str | None = None
        # what makes one file of what was copied, and why that failed
        self.finishing: "Finishing | None" = None
        self.hold = Hold()
        # takes the tables of a request to add some, and returns why it doesn't
        self.adds: Callable[[dict[str, Any]], str | None] = lambda asked: "no table can be added"
        # of the follower: whether large transactions are streamed, whether a table is being added,
        # and an LSN above all passed on
        self.is_streaming: Callable[[], bool] = lambda: False
        self.is_adding: Callable[[], bool] = lambda: False
        self.reached: Callable[[], int] = lambda: 0
        # whether commits wait for it, by these synchronous_standby_names where they are told
        self.delays_commits: Callable[[str], bool] = lambda standbys: False
        # whether a request waits for a session of whole transactions
        self.wants_whole = False

    def note_follower(
        self,
        adds: Callable[[dict[str, Any]], str | None],
        is_streaming: Callable[[], bool],
        is_adding: Callable[[], bool],
        reached: Callable[[], int],
        delays_commits: Callable[[str], bool],
    ) -> None:
        """Notes what a follower knows, and does, of which copies depend."""
        self.adds, self.is_streaming, self.is_adding = adds, is_streaming, is_adding
        self.reached, self.delays_commits = reached, delays_commits

    def ask(self) -> None:
        """Asks for a copy as soon as it can be made, as a signal does."""
        self.asked = True
        self.requests.wake()

    def is_due(self, position: int) -> bool:
        """Whether to copy a store at this position: asked for, or due and newer than the last."""
        self.requests.tend()
        self.look(position)
        if self.finishing:
            return False
        if self.hold.into:
            return self.hold.is_due()
        if self.wanted is not None:
            return True
        if not self.path:
            return False
        is_time = self.every > 0 and position != self.last and time.monotonic() >= self.next
        return self.asked or is_time

    def look(self, position: int) -> None:
        """Takes a request up, or looks what has become of the one for which the stream is held."""
        if self.finishing and self.finishing.has_ended:
            self.finish(self.finishing)
        if self.hold.into:
            self.look_after()
        elif self.finishing:
            return
        elif self.client and self.client.is_gone:
            self.end()
        elif self.client is None:
            self.wants_whole = False
            if client := self.requests.first():
                self.take_up(client, client.asked or {}, position)

    def take_up(self, client: Client, asked: dict[str, Any], position: int) -> None:
        """Does what is asked, or has it done; it stays where it waits for another session."""
        if asked["ask"] == "add":
            self.requests.take()
            if (error := self.adds(asked)) is None:
                client.end(noted=True)
            else:
                client.end(error=error)
            return
        into = path_of(asked.get("into"))
        why = self.obstacle_to(into)
        if asked["ask"] == "hold" and not why:
            why = self.obstacle_to_hold(asked)
            if not why and "repair" in asked and self.is_streaming():
                self.wants_whole = True
                return
        self.requests.take()
        if why:
            client.end(error=why)
        elif asked["ask"] == "hold" and into:
            self.client = client
            self.hold.begin(into, asked["seconds"], "repair" in asked, self.maker(asked))
            client.answer(held=lsn_text(position))
        else:
            self.client, self.wanted = client, into

    def obstacle_to(self, into: str | None) -> str:
        """Why nothing can be copied to a file, "" where it can."""
        if into is None:
            return "it names no file"
        files = into, os.path.abspath(self.store)
        folders = {os.path.realpath(os.path.dirname(it)) for it in files}
        if len(folders) > 1 or os.path.lexists(into):
            return "the copy has to be a new file in the store's folder"
        return ""

    def obstacle_to_hold(self, asked: dict[str, Any]) -> str:
        """Why the stream can't be held for whoever will tell an LSN, "" where it can."""
        seconds: Any = asked.get("seconds")
        if type(seconds) not in (int, float) or not 0 < seconds <= LONGEST:
            return f"it may be held for {LONGEST:.0f} seconds at most"
        if "repair" in asked and self.is_adding():
            return "a table is being added: repair rows once it is there"
        if not self.delays_commits(str(asked.get("standbys", ""))):
            return ""
        if not self.maker(asked):
            return "commits at the server wait for the follower, and whoever asks is of an older version"
        return too_large_to_copy(self.store)

    def maker(self, asked: dict[str, Any]) -> int:
        """The process that makes the slot, where commits wait for the follower."""
        maker = asked.get("maker")
        delays = self.delays_commits(str(asked.get("standbys", "")))
        return maker if delays and type(maker) is int else 0

    def look_after(self) -> None:
        """Goes on up to the LSN that is told now, or lets go where nobody waits any more."""
        hold, client = self.hold, self.client
        if hold.is_sent:
            # (the changes are on their way, whoever has asked)
            return
        while client and client.said and self.hold.is_held:
            self.hear(client.said.popleft())
        if not hold.is_held:
            return
        if client is None or client.is_gone:
            log.warning("whoever had asked for the copy at one LSN is gone: following goes on")
            self.let_go()
        elif hold.point is None and time.monotonic() > hold.until:
            self.reject("the LSN at which to copy it wasn't told in time")
            self.hold.end()

    def hear(self, said: dict[str, Any]) -> None:
        """What is said by who has the stream held."""
        hold = self.hold
        try:
            if "ends" in said:
                self.let_go()
            elif hold.point is None:
                self.go(lsn_of(said.get("point")))
            elif hold.is_copied and hold.tables is None:
                hold.note_changes([oid_of(it) for it in list_of(said.get("tables"))])
        except Unreadable as error:
            self.reject(f"what was said of the hold can't be read: {error}")
            hold.end()

    def go(self, point: int) -> None:
        """Goes on up to an LSN, which has to be above all that was, or may have been, passed on."""
        reached = self.reached() if self.hold.keeps else self.hold.gate or 0
        if point <= reached:
            places = f"its slot is at {lsn_text(point)}, and the stream at {lsn_text(reached)}"
            self.reject(f"{places}: is it of a standby behind?")
            self.hold.end()
        else:
            self.hold.go(point)

    def let_go(self) -> None:
        """Goes on, since nobody waits for the copy any more."""
        if self.client:
            self.client.close()
        self.client = None
        self.hold.end()

    def end(self, **fields: object) -> None:
        """Gives whoever has asked the last answer."""
        if self.client:
            self.client.end(**fields)
        self.client, self.wanted = None, None

    def reject(self, why: str, lasts: bool = False, delays: bool = False) -> None:
        """Tells whoever waits that nothing comes of it, nor of another request if that `lasts`.
        `delays`: commits had to wait for it."""
        self.end(error=why, lasts=lasts, delays=delays)

    def take(self, position: int, tick: Callable[[], None]) -> None:
        """Copies the files of a store at rest, and has a thread make one file of them. `tick` is
        called between parts.

        What it raises is raised, and nothing stays of the copy. Whoever waits for it is told of an
        end; else it is copied again later.
        """
        into, keeps = self.hold.into or self.wanted, self.hold.keeps
        self.hold.begin_copy()
        path = into or self.path or ""
        assert path
        if into is None:
            self.asked = False
            self.next = time.monotonic() + self.every
            self.last = position
        try:
            path = into or meant(path)
            self.copy(path + NEW, tick)
        except (OSError, FileError) as error:
            # (a FileError: of a link that somebody else has put there)
            self.fail(path, into, getattr(error, "strerror", None) or str(error))
        except Stopped:
            self.fail(path, into, "the follower is about to end")
            raise
        except BaseException:
            self.clear(path)
            self.asked = self.asked or into is None
            if self.hold.into and not keeps:
                self.reject("the session ended while it was copied")
            raise
        else:
            self.finishing = Finishing(path, into, position, self.requests.wake)
            self.finishing.start()
        finally:
            if not keeps:
                self.hold.end()

    def copy(self, new: str, tick: Callable[[], None]) -> None:
        for suffix in OF_FILE:
            remove(new + suffix)
        for suffix in (LOG, ""):
            # (the log is beside the file, whatever links to that)
            copy(real(self.store) + suffix, new + suffix, self.mode, tick)

    def finish(self, finished: "Finishing") -> None:
        """Tells of a copy that is whole, or isn't."""
        self.finishing = None
        path, into = finished.path, finished.into
        if finished.error:
            self.fail(path, into, finished.error)
        elif into is not None and (self.client is None or self.client.is_gone):
            # (whoever gives up ends the connection first, and then removes the file)
            remove(path)
            self.end()
        else:
            log.info(f"{path}: the rows at {lsn_text(finished.found)}")
            if self.hold.keeps and self.client:
                self.client.answer(copied=lsn_text(finished.found))
            elif into is not None:
                self.end(copied=lsn_text(finished.found))

    def clear(self, path: str) -> None:
        """Removes what is there of a copy that isn't whole."""
        for suffix in OF_FILE:
            # (what was in the way before is told)
            with contextlib.suppress(OSError):
                remove(path + NEW + suffix)
        self.last = None

    def fail(self, path: str, into: str | None, why: str) -> None:
        self.clear(path)
        log.warning(f"{path}: {why}")
        if into is not None:
            self.reject(why)
            if self.hold.into == into:
                self.hold.end()

    def wait(self, tick: Callable[[], None] = never) -> None:
        """Waits for a copy that is being made. `tick` is called meanwhile."""
        if finishing := self.finishing:
            while finishing.is_alive():
                finishing.join(STEP)
                tick()
            self.requests.tend()
            self.finish(finishing)


class Finishing(threading.Thread):
    """Puts the log into a copied file, which takes its place once it is whole."""

    def __init__(
        self, path: str, into: str | None, position: int, ended: Callable[[], None]
    ) -> None:
        super().__init__(daemon=True)
        self.path, self.into, self.position, self.ended = path, into, position, ended
        # the LSN of the copy; why there is none; and whether either is known
        self.found, self.error, self.has_ended = position, "", False

    def run(self) -> None:
        try:
            self.place(self.path + NEW)
        except (OSError, sqlite3.Error) as error:
            self.error = getattr(error, "strerror", None) or str(error)
        finally:
            self.has_ended = True
            self.ended()

    def place(self, new: str) -> None:
        fold(new)
        found = position_in(new)
        if found is None or found < self.position:
            raise OSError(0, f"the copy isn't at {lsn_text(self.position)}")
        self.found = found
        for suffix in OF_FILE[1:]:
            remove(self.path + suffix)
        os.replace(new, self.path)
        sync_folder(self.path)


def path_of(said: object) -> str | None:
    """The path of a file that a request names; None where what it says is none."""
    with contextlib.suppress(UnicodeEncodeError):
        if isinstance(said, str) and "\0" not in said:
            return os.path.abspath(os.fsdecode(os.fsencode(said)))
    return None
