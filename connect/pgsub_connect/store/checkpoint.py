"""What is known of a store from one run to the next, in a file beside it, and what a start
concludes from it.

The file is `STORE.connector`: two lines that are written in turns, as the module
`store.checkpoint_lines` says. It is locked as long as a connector or a filter that it started is
alive, so that a filter of a killed connector can end its commit before the next one opens the
store. It is its owner's alone whatever mode was asked for, since whoever can open a file can lock
it.

What is known of the store:

| Field | Means |
|---|---|
| `phase` | `new`: nothing yet; `copying`: a copy begins; `slot`: its slot is made, and rows are read; `copied`: all are stored; `following` |
| `system`, `database`, `slot` | whose changes the store holds |
| `timeline` | the server's timeline in the last session; 0 where it isn't known |
| `started` | when the server of the last session was started, in microseconds since 1970; 0 where it isn't known |
| `confirmed` | at least what was ever sent as flushed because of a keepalive, and at most what the store had confirmed |
| `position` | the store's position was at least this |
| `found` | what may have made the copy wrong, and the LSN at which it was found first; until somebody accepts it |
| `skipped` | the final LSN of the commit that was skipped last |
| `adding` | where there are any: the OIDs of tables whose changes are left out until their rows are stored, as the module `add.replacement` says, each with the LSN at which these will be, 0 where that isn't known |
| `encrypted` | connections were encrypted, so that none follows that isn't, unless somebody accepts it |
| `tables` | the file of the tables that follow the store's feed, "" where there is none |
| `repeats` | the LSN from which on commits that come again are compared with what the filter has noted of them, as the module `store.repeats_file` says; 0 where none are |
| `publications` | a checksum of the names of those by which these commits were asked for |

What is counted of changes that found no row:

| Field | Means |
|---|---|
| `since`, `upto` | the positions between which they are counted |
| `count` | how many there were, until somebody accepts them |
| `first`, `relation` | the end of the commit that had the first of these, and the OID of its table |
| `gap` | two positions, of which the store was found at the second one when they were counted up to the first; until somebody accepts it |
"""

import contextlib
import dataclasses
import fcntl
import os
import stat
import time
from collections.abc import Iterator
from typing import Any

from pgsub_feed import log
from pgsub_feed.errors import FileError, Passing, Unfit, told_of
from pgsub_feed.interruption import Check, never, undone_by
from pgsub_feed.json_texts import GREATEST, Unreadable, open_plain
from pgsub_feed.texts import lsn_text

from ..status.state import KINDS as FOUND, Counted as Counted
from .checkpoint_lines import NEW, SIZE, TEXT, Known, line_of, padded, read_file

MODE = 0o600
PATIENCE = 60
# How long a path may be, as JSON, beside which all findings have room.
LONGEST_PATH = 1024
# What is before and between the two positions. (In a text each quote has a backslash.)
BEFORE, BETWEEN = '"confirmed":', ',"position":'
# All kinds of what may be found, and that of changes that found no row.
KINDS, MISSING = (*FOUND, "gap"), FOUND[-1]


class Checkpoint:
    """The file, open and locked. `counted` is None before a filter has begun."""

    def __init__(self, store: str, check: Check = never) -> None:
        self.path = store + ".connector"
        # what stands around the two positions in what is known, until something else changes
        self.around: tuple[str, str] | None = None
        self.file = self.opened()
        with undone_by(lambda: os.close(self.file)), told_of(self.path):
            self.lock(check)
            line = read_file(self.file, self.path)
            os.fsync(self.file)
        self.number, self.known, self.counted = line.number, line.known, line.counted
        # the place of a line that the disk has; the other one is written
        self.durable = line.at

    def opened(self) -> int:
        with told_of(self.path):
            file = os.open(self.path, os.O_RDWR | os.O_CREAT | os.O_CLOEXEC, MODE)
            if stat.S_IMODE(os.fstat(file).st_mode) & ~MODE:
                with contextlib.suppress(PermissionError):
                    os.fchmod(file, MODE)
            return file

    def lock(self, check: Check) -> None:
        until = time.monotonic() + PATIENCE
        told = False
        while not self.has_locked():
            if time.monotonic() >= until:
                raise Passing(f"{self.path}: another process follows into this store")
            if not told:
                log.info(
                    f"another connector or its filter still has the store: waiting up to {PATIENCE} seconds"
                )
                told = True
            check()
            time.sleep(0.2)

    def has_locked(self) -> bool:
        """Locks the file, or another one where `drop`, say, has removed the one that is open."""
        try:
            fcntl.flock(self.file, fcntl.LOCK_EX | fcntl.LOCK_NB)
        except BlockingIOError:
            return False
        if has_name(self.file, self.path):
            return True
        file = self.opened()
        os.close(self.file)
        self.file = file
        return False

    def write(self, durably: bool, **fields: Any) -> None:
        """Changes what is known. Where `durably`, the disk has it before this returns."""
        self.put(durably, dataclasses.replace(self.known, **fields), self.counted)

    def put(self, durably: bool, known: Known, counted: Counted | None) -> None:
        """Writes a line. It is known once it is written."""
        self.put_line(durably, spelled(known), counted)
        self.known, self.around = known, None

    def put_positions(
        self, durably: bool, confirmed: int, position: int, counted: Counted | None
    ) -> None:
        """Writes the positions. It is done for most of the statuses, so what stands around them
        isn't made anew each time."""
        head, tail = self.around = self.around or around_positions(self.known)
        self.put_line(durably, f"{head}{confirmed}{BETWEEN}{position}{tail}", counted)
        self.known.move(confirmed, position)

    def put_line(self, durably: bool, known: str, counted: Counted | None) -> None:
        """Writes a line over the one that the disk needn't have: so a power cut leaves one that is
        whole, whatever becomes of this."""
        line, at = line_of(self.number + 1, known, counted), 1 - self.durable
        if len(line) >= SIZE:
            text = f"{self.path}: {len(line)} bytes are too long for a checkpoint: `--accept` what was found, or copy anew"
            raise FileError(text)
        with told_of(self.path, Passing):
            os.pwrite(self.file, padded(line), at * SIZE)
            if durably:
                os.fdatasync(self.file)
        self.number, self.counted = self.number + 1, counted
        self.durable = at if durably else self.durable

    def begin_anew(self) -> None:
        """Forgets what is known, as where the store is made anew."""
        self.known, self.counted = Known(), None

    def forget_server(self) -> None:
        """Forgets whose changes the store holds, and how far it was."""
        kept = "found", "skipped", "adding", "encrypted", "tables"
        self.known = Known(**{name: getattr(self.known, name) for name in kept})

    def note_tables(self, path: str) -> None:
        """Notes durably which file has the tables that follow, "" where none has."""
        if len(TEXT.encode(path)) > LONGEST_PATH:
            raise FileError(f"--tables {path}: that path is too long to be remembered")
        if path != self.known.tables:
            self.write(True, tables=path)

    def note(self, confirmed: int, position: int) -> None:
        """Notes what is about to be confirmed to the server, before it is.

        What lies above the store's position is known from a keepalive alone, and the next start
        can't see it in the store. So that has to outlast a power cut. The rest is in the store
        itself.
        """
        known, counted = self.known, self.counted
        if counted and counted.upto != position:
            rest = counted.count, counted.first, counted.relation, counted.gap
            counted = Counted(counted.since, position, *rest)
        confirmed, position = max(confirmed, known.confirmed), max(position, known.position)
        if (confirmed, position, counted) != (known.confirmed, known.position, self.counted):
            durably = confirmed > position and confirmed > known.confirmed
            self.put_positions(durably, confirmed, position, counted)

    def begin_counting(self, position: int, accepts: bool) -> bool:
        """Notes durably that a filter counts from this position of its store on.

        Where it was counted up to less, a filter had stored commits and was killed before it was
        noted what they found. Returns whether so, unless that is accepted.
        """
        before = self.counted or Counted(position, position)
        gap = before.gap
        if is_found := position > before.upto and not accepts:
            gap = (min(before.upto, *gap) if gap else before.upto, position)
        since = min(before.since, position)
        counted = dataclasses.replace(before, since=since, upto=position, gap=gap)
        if counted != self.counted:
            self.put(True, self.known, counted)
        return is_found

    def note_missing(self, more: int, first: int, relation: int, position: int) -> None:
        """Notes durably that so many more changes found no row, in commits up to this position."""
        counted = self.counted or Counted(position, position)
        if not counted.count:
            counted = dataclasses.replace(counted, first=first, relation=relation)
        counted = dataclasses.replace(counted, count=counted.count + more, upto=position)
        at = max(position, self.known.position)
        self.put(True, dataclasses.replace(self.known, position=at), counted)

    def findings(self) -> dict[str, str]:
        """All kinds of what was found, each with the LSN at which it was found first."""
        found, counted = dict(self.known.found), self.counted
        if counted and counted.count:
            found[MISSING] = lsn_text(counted.first)
        elif counted and counted.gap:
            found[MISSING] = lsn_text(counted.gap[0])
        return found

    def note_found(self, kind: str, lsn: int) -> bool:
        """Notes durably that something was found; whether none of this kind was known."""
        if kind in self.known.found:
            return False
        self.write(True, found={**self.known.found, kind: lsn_text(lsn)})
        return True

    def forget_repeats(self) -> None:
        """Notes durably that what comes isn't compared with the commits that were noted."""
        if self.known.repeats:
            self.write(True, repeats=0)

    def adding(self) -> dict[int, int]:
        """The tables that are added, each with the LSN at which its rows are stored, or 0."""
        return dict(self.known.adding)

    def write_adding(self, adding: dict[int, int]) -> None:
        """Notes durably which tables are being added. What it says begins to hold after this."""
        if adding != self.known.adding:
            self.write(True, adding=adding)

    def has_room_for(self, oid: int) -> bool:
        """Whether one more table can be noted, whatever else the file will say."""
        most, adding = GREATEST, {**self.known.adding, oid: GREATEST}
        numbers = dict.fromkeys(("confirmed", "position", "started", "repeats"), most)
        texts = {"found": dict.fromkeys({*self.known.found, *KINDS}, lsn_text(most))}
        numbers |= dict.fromkeys(("timeline", "publications"), (1 << 32) - 1)
        more: dict[str, Any] = {"skipped": lsn_text(most), **numbers, **texts}
        known = spelled(dataclasses.replace(self.known, adding=adding, **more))
        counted = Counted(most, most, most, most, most, (most, most))
        return len(line_of(most, known, counted)) < SIZE

    def accept(self, kinds: list[str]) -> None:
        """Forgets what was found of these kinds."""
        found, counted = self.known.found, self.counted
        left = {} if "all" in kinds else {it: found[it] for it in found if it not in kinds}
        if counted and {MISSING, "all"} & set(kinds):
            counted = Counted(counted.since, counted.upto)
        if (left, counted) != (self.known.found, self.counted):
            self.put(True, dataclasses.replace(self.known, found=left), counted)


def has_name(file: int, path: str) -> bool:
    """Whether an open file has this name still."""
    try:
        return os.path.samestat(os.fstat(file), os.stat(path))
    except FileNotFoundError:
        return False


def spelled(known: Known) -> str:
    return TEXT.encode(vars(known))


def around_positions(known: Known) -> tuple[str, str]:
    """What stands in its text before and behind the two positions, but for what is between them."""
    text, positions = spelled(known), f"{known.confirmed}{BETWEEN}{known.position}"
    at = text.index(BEFORE + positions) + len(BEFORE)
    return text[:at], text[at + len(positions) :]


def check_gap(known: Known, position: int, slot_at: int) -> None:
    """Checks that no commit with changes lies between the store's position and what the slot sends
    next.

    Of a store without this file nobody knows from which server its rows are; that one's positions
    may be beyond this one's. The slot is ahead of the position of a good store where a keepalive
    moved it there: then this file says so. It is ahead of a store that was put back from a backup
    too, or where somebody else read from the slot or made it anew.
    """
    cure = "Copy anew, or take it as it is by --accept gap, and `pgsub-connect verify --repair`"
    if known.phase == NEW and position > 0:
        text = f"nothing is known of where the store at {lsn_text(position)} is from: its checkpoint isn't there. {cure}"
        raise Unfit(text)
    if slot_at <= position:
        return
    gap = f"the store is at {lsn_text(position)} and the slot at {lsn_text(slot_at)}: changes between may be missing"
    if position < known.position:
        text = f"{gap}; the store was at {lsn_text(known.position)} before, so this is an older one. {cure}"
        raise Unfit(text)
    if slot_at > known.confirmed:
        text = f"{gap}; up to {lsn_text(known.confirmed)} was confirmed from here, so somebody else moved the slot, or made it anew. {cure}"
        raise Unfit(text)


def read_known(path: str) -> Known:
    """What the checkpoint has, or nothing where it isn't there."""
    try:
        file = open_plain(path)
    except FileNotFoundError:
        return Known()
    except OSError as error:
        raise FileError(f"{path}: {error.strerror}") from None
    except Unreadable as error:
        raise FileError(f"{path}: {error}") from None
    try:
        return read_file(file, path).known
    finally:
        os.close(file)


@contextlib.contextmanager
def locked(path: str) -> Iterator[None]:
    """Holds the checkpoint's lock, so that no connector begins. Raises where one is at work."""
    try:
        file = os.open(path, os.O_RDWR | os.O_CLOEXEC)
    except FileNotFoundError:
        yield
        return
    except OSError as error:
        raise FileError(f"{path}: {error.strerror}") from None
    try:
        try:
            fcntl.flock(file, fcntl.LOCK_EX | fcntl.LOCK_NB)
        except BlockingIOError:
            text = f"{path}: a connector or its filter is at work on this store: end it first"
            raise Passing(text) from None
        if not has_name(file, path):
            raise Passing(f"{path} was removed meanwhile")
        yield
    finally:
        os.close(file)
