"""Connections to a server by libpq (psycopg.pq): its passwords, TLS, services and environment."""

from __future__ import annotations

import contextlib
import select
import threading
import time
from collections.abc import Iterator

from pgsub_feed.interruption import Check, never
from pgsub_feed.texts import said_text, shortened

from ..errors import ServerError, Unconnected, WrongAnswer, understood
from . import login
from .calls import libpq
from .library import errors, pq
from .login import DEFAULTS, parameters
from .notices import Notices

Row = list[str | None]
# After how many seconds a command is given up that takes no time at the server.
QUICK = 60.0
# After how many rows that have come already it is looked for the end, which costs more than a row.
ROWS_UNSEEN = 256
# How many bytes of a COPY's lines are taken at a time.
ROWS_AT_ONCE = 1 << 16
# libpq's PGRES_EMPTY_QUERY, PGRES_COMMAND_OK, PGRES_TUPLES_OK, PGRES_COPY_OUT and those behind it.
DONE, ROWS = (0, 1, 2), (2,)
COPY_OUT, COPY_BOTH = (3,), (8,)
COPIES, SINGLE_TUPLE = (3, 4, 8), 9
# What PQgetCopyData returns after the last message.
ENDED = -1
# How many bytes are dropped at a time.
DRAINED = 1 << 20
# How much libpq asks of the system at least where it reads, and how much is a lot, in bytes.
READ, LOT = 1 << 13, 1 << 16
NO_DSN = "no --dsn was given, so libpq's environment and defaults say where the server is"


class Connection:
    """A connection to a server, for replication where asked.

    What `dsn` says of these goes before: a limit of 10 seconds to connect to a host, and a lost
    peer is noticed within about a minute. `check` is called at least each half second while
    something is waited for; what it raises ends the wait and cancels the command.
    """

    def __init__(
        self,
        dsn: str,
        *,
        replication: bool = False,
        name: str = "pgsub",
        quiet: bool = False,
        check: Check = never,
    ) -> None:
        self.check = check
        self.unsent = False
        # what broke the stream of CopyData off, and is to be raised after those that came before it;
        # libpq may have closed the socket by then
        self.broken: ServerError | None = None
        settings = {**DEFAULTS, "application_name": name, **parameters(dsn)}
        settings |= {"client_encoding": "UTF8"}
        settings |= {"replication": "database"} if replication else {}
        try:
            # (how it is protected)
            self.raw, self.protection = login.connect(settings, check)
        except Unconnected as error:
            raise error if dsn else Unconnected(f"{error}\n{NO_DSN}", error.sqlstate) from None
        # what the server has said of changes that it leaves out, since the caller looked last
        self.left_out: list[str] = []
        self.notices = Notices(self.left_out)
        self.raw.notice_handler = None if quiet else self.notices.hear
        self.wire = libpq.wire_of(self.raw)

    def set_check(self, check: Check) -> None:
        """Has this called from now on while something is waited for."""
        self.check = check

    @contextlib.contextmanager
    def checked_by(self, check: Check) -> Iterator[None]:
        """Calls this in place of its own check meanwhile."""
        own, self.check = self.check, check
        try:
            yield
        finally:
            self.check = own

    def error(self) -> str:
        return said_text(self.raw.error_message)

    def wait(self, until: float = float("inf")) -> None:
        """Waits until something has come, and reads it, within the limit whatever comes."""
        has_come = False
        while not has_come:
            try:
                self.check()
                if time.monotonic() > until:
                    raise ServerError("the server didn't answer in time")
                has_come = libpq.ready(self.socket(), reads=True, writes=self.unsent)
                if self.unsent:
                    self.flush()
            except BaseException:
                self.cancel()
                raise
            # (what TLS has read already doesn't wake select)
            self.consume()
            if not self.raw.is_busy():
                return

    def look(self, until: float) -> None:
        """Looks for the end and the limit where nothing is waited for, since it has come."""
        self.check()
        if time.monotonic() > until:
            self.cancel()
            raise ServerError("the server didn't end its answer in time")

    def cancel(self) -> None:
        """Asks the server to end the command that runs: it goes on after a close else."""
        with contextlib.suppress(errors.Error):
            handle = self.raw.get_cancel()
            # (libpq's own call has no limit)
            thread = threading.Thread(target=cancel_by, args=(handle,), daemon=True)
            thread.start()
            thread.join(libpq.TICK / 2)

    def next_result(self, until: float = float("inf")) -> pq.abc.PGresult | None:
        """The next result of the command that runs, None after the last."""
        while self.raw.is_busy():
            self.wait(until)
        return self.raw.get_result()

    def run(
        self, command: str, wanted: tuple[int, ...] = DONE, limit: float = float("inf")
    ) -> libpq.Rows:
        """Runs a command for its rows or copy. `limit`: when the connection is given up."""
        found, last = libpq.Rows(), None
        try:
            last = self.answer(command, time.monotonic() + limit, found)
        except errors.OperationalError as error:
            raise ServerError(shortened(str(error))) from None
        except WrongAnswer:
            self.cancel()
            raise
        if last is None or last.status not in wanted:
            raise self.unwanted(command, last)
        return found

    def answer(self, command: str, until: float, found: libpq.Rows) -> pq.abc.PGresult | None:
        """The last result of a command, or that which begins to copy. Rows come one by one."""
        self.raw.send_query(command.encode())
        self.raw.set_single_row_mode()
        self.flush()
        last = None
        while result := self.next_result(until + found.seconds()):
            is_row = result.status == SINGLE_TUPLE
            if not is_row or len(found.rows) % ROWS_UNSEEN == 0:
                self.look(until + found.seconds())
            if is_row:
                found.add(result)
                continue
            last = result
            if last.status in COPIES:
                break
        return last

    def unwanted(self, command: str, result: pq.abc.PGresult | None) -> ServerError:
        """The error of a result that wasn't wanted: the server's fault where it names none."""
        if result is None or result.error_message or self.raw.error_message:
            return self.error_of(result)
        kind = pq.ExecStatus(result.status).name
        text = f"the server's answer to {command.partition(' ')[0]} isn't one of PostgreSQL"
        return WrongAnswer(f"{text}: {kind}")

    def error_of(self, result: pq.abc.PGresult | None) -> ServerError:
        if result is None:
            return ServerError(self.error())
        sqlstate = result.error_field(pq.DiagnosticField.SQLSTATE) or b""
        text = said_text(result.error_message) or self.error()
        return ServerError(text, sqlstate.decode(errors="replace"))

    def rows(self, command: str, limit: float = float("inf")) -> list[list[str | None]]:
        """Runs a query, and returns its rows as lists of texts, None for null."""
        return self.run(command, ROWS, limit).rows

    def many_rows(self, query: str, limit: float = float("inf")) -> list[list[str | None]]:
        """The same of a query that may have thousands, as a COPY's lines: one by one each row of a
        result takes many times as long."""
        found, until, last = libpq.Rows(), time.monotonic() + limit, 1
        self.run(f"COPY ({query}) TO STDOUT", COPY_OUT, limit)
        try:
            while last >= 0:
                lines, last, _ = self.wire.take(ROWS_AT_ONCE, ROWS_AT_ONCE)
                found.add_lines(lines)
                self.look(until + found.seconds())
                if last == 0:
                    self.wait(until + found.seconds())
        except WrongAnswer:
            self.cancel()
            raise
        self.end_rows(last)
        return found.rows

    def value(self, command: str, limit: float = float("inf")) -> str | None:
        """The first value of a query's first row, None where there is no row."""
        rows = self.rows(command, limit)
        with understood("one value"):
            return rows[0][0] if rows else None

    def text(self, command: str) -> str:
        """The first value of a query's first row, which is there and takes no time."""
        return self.value(command, QUICK) or ""

    def parameter(self, name: str) -> str:
        value = self.raw.parameter_status(name.encode())
        return said_text(value) if value else "unknown"

    def version(self) -> int:
        """The server's version as a number: 150018 is 15.18."""
        return self.raw.server_version

    def socket(self) -> int:
        """Raises where libpq has closed it: its number may be another file's by then."""
        try:
            return self.raw.socket
        except errors.OperationalError as error:
            self.broken = self.broken or ServerError(shortened(str(error)))
            raise self.broken from None

    def pid(self) -> int:
        """The process at the server."""
        return self.raw.backend_pid

    def is_wrapped(self) -> bool:
        """Whether TLS or GSSAPI may have read bytes of the server that haven't come yet."""
        if self.raw.ssl_in_use or self.raw.host.startswith((b"/", b"@")):
            return bool(self.raw.ssl_in_use)
        return libpq.is_by_gssapi(self.raw) is not False

    def copied_blocks(self, command: str, size: int) -> Iterator[list[bytes]]:
        """Yields the lines of a COPY TO STDOUT in blocks of about so many bytes."""
        self.run(command, COPY_OUT)
        lines, left, last = list[bytes](), size, 1
        while last >= 0:
            found, last, left = self.wire.take(left, size)
            lines += found
            if left <= 0:
                yield lines
                lines, left = [], size
            elif last == 0:
                self.wait()
        self.end_rows(last)
        if lines:
            yield lines

    def end_rows(self, last: int) -> None:
        """After the last line of a COPY. Raises the error with which it ended, if it did."""
        if last != ENDED:
            raise ServerError(self.error())
        last_result = None
        while result := self.next_result():
            last_result = result
        if last_result is not None and last_result.error_message:
            raise self.error_of(last_result)

    def consume(self) -> None:
        """Reads what has come on the socket."""
        if not self.wire.consume():
            raise ServerError(self.error())

    def next_payload(self) -> bytes | None:
        """The payload of the next CopyData, b"" where none is there yet, None after the last."""
        try:
            length, payload = self.raw.get_copy_data(1)
        except errors.OperationalError as error:
            raise ServerError(shortened(str(error))) from None
        if length > 0:
            whole = payload.obj
            return whole if isinstance(whole, bytes) else bytes(payload)
        if length == 0:
            return b""
        self.end_copies()
        return None

    def payloads(self, room: int, long: int) -> tuple[list[bytes], bool | None]:
        """Those of CopyData that have come, up to so many bytes, or to the first one that is at
        least `long`.

        Beside them: whether there may be more, None after the last. An error is raised once those
        before it were returned.
        """
        if self.broken:
            raise self.broken
        found, last = self.taken(room, long)
        try:
            if last == ENDED:
                self.end_copies()
            elif last < 0:
                raise ServerError(self.error())
        except ServerError as error:
            self.broken = error
            if not found:
                raise
            return found, True
        return found, None if last == ENDED else last > 0

    def taken(self, room: int, long: int) -> tuple[list[bytes], int]:
        """Those, with what PQgetCopyData returned behind them. What is read at a time is no longer
        than libpq's buffer: where it was that, more is read at once, since all else that is done
        for a lot costs as much as a hundred short messages."""
        found, last, left = self.wire.take(room, long)
        before = room
        while last == 0 and before - left >= READ and room - left < LOT:
            if not self.wire.consume():
                self.broken = ServerError(self.error())
                break
            before = left
            more, last, left = self.wire.take(left, long)
            found += more
        return found, last

    def end_copies(self) -> None:
        """After the last CopyData. Raises the error with which the server ended them, if it did."""
        result = self.next_result()
        if result is not None and result.error_message:
            raise self.error_of(result)

    def send(self, payload: bytes) -> None:
        """Sends a CopyData without waiting; `unsent` tells that some of it waits for the socket."""
        self.note_left(self.wire.send(payload))

    def flush(self) -> None:
        self.note_left(self.wire.flush())

    def note_left(self, left: int) -> None:
        """Notes whether something waits to be sent, or what has ended the stream."""
        if left < 0:
            self.broken = self.broken or ServerError(self.error())
            raise self.broken
        self.unsent = left > 0

    def end_copy(self) -> None:
        """Tells the server that nothing more is sent, within a second, heard or not."""
        with contextlib.suppress(errors.OperationalError, ServerError):
            self.raw.put_copy_end()
            self.flush()
            if self.unsent:
                select.select([], [self.socket()], [], 1.0)
                self.flush()

    def drain(self, seconds: float) -> None:
        """Drops, for so many seconds, what still comes of CopyData whose end was asked for."""
        until = time.monotonic() + seconds
        with contextlib.suppress(errors.OperationalError, ServerError):
            while not self.broken and (left := until - time.monotonic()) > 0:
                if select.select([self.socket()], [], [], left)[0]:
                    self.consume()
                while (found := self.payloads(DRAINED, DRAINED))[0]:
                    pass
                if found[1] is None:
                    return

    def close(self) -> None:
        self.notices.end()
        self.wire = libpq.Slow(self.raw)
        self.raw.finish()


def cancel_by(handle: pq.abc.PGcancel) -> None:
    with contextlib.suppress(errors.Error):
        handle.cancel()
