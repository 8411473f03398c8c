"""The side of the reader: commits of a feed on another host, also where the way there is cut."""

import contextlib
import dataclasses
import json
import os
import shlex
import subprocess
import tempfile
import time
import urllib.parse
from collections.abc import Callable, Iterable, Iterator
from typing import Generic, TypeVar

from .. import errors, log
from ..column_types import KnownTypes
from ..interruption import Check, rest
from ..json_texts import lsn_of, whole_of
from ..reader.base import sections_of
from ..reader.blocks import LONG, Blocks, Lasting
from ..reader.commits import Closing, Commit, Head, Part
from ..reader.decoding import Decoder
from ..reader.lines import (
    no_head,
    read_commit,
    read_head,
    read_object,
    shown,
    summed,
    whole_lines,
)
from ..reader.polling import PATIENCE
from ..reader.whole import parts_of
from ..texts import lsn_text
from .pipes import Cut, Pipes

SCHEME = "ssh://"
# What is run in place of ssh, in words as of a shell; and what is, where that isn't set: it never
# asks for a password, and sees that the other host is gone.
INSTEAD = "PGSUB_SSH"
SSH = "ssh -T -o BatchMode=yes -o ServerAliveInterval=15"
# After how many seconds another try is made, at first and at most, and a process is killed.
FIRST_DELAY, LONGEST_DELAY, GRACE = 0.2, 60.0, 2.0
Read = TypeVar("Read")


@dataclasses.dataclass(frozen=True)
class Address:
    """Where a feed is, of `ssh://user@host:port/path`."""

    host: str
    port: int | None
    path: str

    @staticmethod
    def of(url: str) -> "Address":
        found = urllib.parse.urlsplit(url)
        host = found.netloc.rpartition("@")[0] + "@" if "@" in found.netloc else ""
        try:
            port = found.port
        except ValueError:
            port = 0
        if not found.hostname or not found.path or port == 0 or found.query or found.fragment:
            raise errors.UsageError(f"{url}: a feed elsewhere is ssh://USER@HOST:PORT/PATH")
        return Address(host + found.hostname, port, urllib.parse.unquote(found.path))

    def words(self, follows: bool, reader: str | None) -> list[str]:
        """What is run."""
        asked = ["pgsub-feed", "--pipe", "--feed", self.path]
        asked += ["--follow"] * follows + (["--reader", reader] if reader else [])
        port = ["-p", str(self.port)] if self.port else []
        ssh = shlex.split(os.environ.get(INSTEAD) or SSH)
        return [*ssh, *port, "--", self.host, shlex.join(asked)]


class Link:
    """A process with the pipes."""

    def __init__(self, words: list[str], check: Check) -> None:
        pipe = subprocess.PIPE
        with errors.told_of(words[0]):
            self.child = subprocess.Popen(words, bufsize=0, stdin=pipe, stdout=pipe)
        assert self.child.stdin and self.child.stdout
        self.pipes = Pipes(self.child.stdout.fileno(), self.child.stdin.fileno(), check)

    def close(self) -> None:
        assert self.child.stdin and self.child.stdout
        self.child.stdin.close()
        self.child.stdout.close()
        with contextlib.suppress(subprocess.TimeoutExpired):
            self.child.wait(GRACE)
        if self.child.poll() is None:
            self.child.kill()
        self.child.wait()


class Remote(Generic[Read]):
    """A feed elsewhere. `at`: up to where its reader has all; `read` makes something of each;
    `types` gets what the feed says of them."""

    def __init__(
        self,
        url: str,
        at: int | None,
        follows: bool,
        reader: str | None,
        check: Check,
        read: Callable[[Commit, Iterable[Part]], Read],
        types: KnownTypes,
    ) -> None:
        self.url, self.at, self.follows, self.check = url, at, follows, check
        self.read, self.types = read, types
        self.words = Address.of(url).words(follows, reader)
        self.decoder = Decoder()
        self.head: Head | None = None
        # whether the feed was reached, since when something is wrong, and when another try is due
        self.was_there = self.is_cut = False
        self.wrong: float | None = None
        self.delay = FIRST_DELAY

    def commits(self) -> Iterator[Read]:
        """What is made of each commit. Whoever asks for the next one has done with the one before."""
        while True:
            link, began = Link(self.words, self.check), time.monotonic()
            try:
                with contextlib.closing(link):
                    yield from self.received(link.pipes)
                return
            except Cut as cut:
                self.bear(f"{cut}; {self.words[0]} ended with status {link.child.returncode}")
            except errors.Damaged as damaged:
                # (the filter may be about to cut it off)
                self.bear_damaged(damaged)
            if time.monotonic() - began > LONGEST_DELAY:
                # (the way there was good for long, though nothing came)
                self.delay = FIRST_DELAY
            self.rest()

    def received(self, pipes: Pipes) -> Iterator[Read]:
        pipes.put(b"\n" if self.at is None else f"{lsn_text(self.at)}\n".encode())
        self.decoder.forget()
        while True:
            line = pipes.line()
            if line.startswith(b'{"feed"'):
                self.check_head(line)
            elif line.startswith(b'{"types"'):
                self.take_types(pipes, line)
            elif line.startswith(b'{"at"'):
                self.take_definition(line)
            elif line.startswith((b'{"done"', b'{"fault"')):
                self.end(line)
                return
            else:
                is_base = line.startswith(b'{"base"')
                commit = self.base(line) if is_base else self.commit(line)
                yield self.read(commit, self.read_parts(pipes, commit, is_base))
                self.at, self.wrong, self.delay = commit.end, None, FIRST_DELAY
                pipes.put(f"{lsn_text(commit.end)}\n".encode())

    def check_head(self, line: bytes) -> None:
        try:
            head = read_head(line)
        except ValueError as error:
            raise self.damaged(errors.NOT_A_FEED, no_head(line, error)) from None
        if self.head and head.source() != self.head.source():
            told = f"a feed of {head.text()}, and before of {self.head.text()}"
            raise self.damaged(errors.OTHER_FEED, told)
        self.head, self.was_there = head, True
        if self.is_cut:
            log.info(f"{self.url} is there again")
            self.is_cut = False

    def take_types(self, pipes: Pipes, line: bytes) -> None:
        """Takes what the commits that follow may need of the catalog."""
        try:
            self.types.take(b"".join(pipes.pieces(whole_of(read_object(line)["bytes"]))))
        except (KeyError, ValueError) as error:
            told = f"this says nothing of types: {error}: {shown(line)}"
            raise self.damaged(errors.LINE, told) from None

    def take_definition(self, line: bytes) -> None:
        """Takes what changes that follow name by its offset."""
        try:
            at, more = line[len(b'{"at":') :].strip().split(b",", 1)
            self.decoder.tell(int(at), self.decoder.defined(b"{" + more))
        except (KeyError, TypeError, ValueError):
            raise self.damaged(errors.LINE, f"this is no definition: {shown(line)}") from None

    def commit(self, line: bytes) -> Commit:
        try:
            found = read_commit(line)
        except ValueError:
            found = Closing(0)
        if isinstance(found, Closing):
            raise self.damaged(errors.COMMIT_LINE, f"this is no line of a commit: {shown(line)}")
        if self.at not in (None, found.prev):
            told = f"a commit from {lsn_text(found.prev)} to {found.text()} where {lsn_text(self.at or 0)} was reached"
            raise self.damaged(errors.ORDER, told)
        return found

    def base(self, line: bytes) -> Commit:
        """Some rows from before the first commit, of who has none."""
        try:
            found = read_object(line)
            ends = [lsn_of(found[it]) for it in ("base", "end")]
            counts = [whole_of(found[it]) for it in ("bytes", "rows", "n")]
        except (KeyError, ValueError):
            told = f"this is no line of first rows: {shown(line)}"
            raise self.damaged(errors.COMMIT_LINE, told) from None
        if self.at:
            told = f"rows from before where {lsn_text(self.at)} was reached"
            raise self.damaged(errors.ORDER, told)
        return Commit(ends[1], 0, counts[0], counts[1], ends[0], base=counts[2])

    def read_parts(self, pipes: Pipes, commit: Commit, is_base: bool) -> Iterable[Part]:
        if is_base:
            return self.rows(pipes, commit)
        if commit.bytes > LONG:
            return self.blocks(pipes, commit)
        return self.parts(pipes, commit)

    def rows(self, pipes: Pipes, commit: Commit) -> Iterator[Part]:
        lines = b"".join(pipes.pieces(commit.bytes)).splitlines(keepends=True)
        n = commit.base or 0
        for section in sections_of(self.url, 0, lines, None):
            yield from parts_of(section, n)
            n += len(section.rows)
        if n != (commit.base or 0) + commit.changes:
            raise self.damaged(errors.COUNTS, f"{n} rows, where {commit.changes} are told")

    def parts(self, pipes: Pipes, commit: Commit) -> Iterator[Part]:
        decoder, told = self.decoder, "the commit's last line has no end where its bytes end"
        decoder.begin(
            commit, lambda number, at, what: self.damaged(number, what, at), lambda at: None
        )
        at = commit.bytes
        # (nothing is made of a commit before all of it was read)
        pieces = self.summed(pipes, commit)
        for lines in whole_lines(pieces, lambda: self.damaged(errors.COUNTS, told, at)):
            yield from decoder.read(lines)
        decoder.finish()

    def summed(self, pipes: Pipes, commit: Commit) -> Iterator[bytes]:
        """The bytes of a commit, some at a time. Behind the last ones it is looked whether all are
        as they were written."""
        at = commit.bytes
        return summed(
            commit, pipes.pieces(at), lambda told: self.damaged(errors.CHECKSUM, told, at)
        )

    def blocks(self, pipes: Pipes, commit: Commit) -> Blocks:
        """Those of a long commit, which goes to a file without a name first."""
        with errors.told_of(tempfile.gettempdir()), tempfile.TemporaryFile() as file:
            for piece in self.summed(pipes, commit):
                file.write(piece)
            file.flush()
            there = os.dup(file.fileno())
        decoder = Lasting()
        decoder.places.update(self.decoder.places)
        # (as at the end of each other commit)
        self.decoder.limit()
        return Blocks(commit, there, 0, self.url, decoder, lambda at: None)

    def damaged(self, number: int, what: str, at: int = 0) -> errors.Damaged:
        return errors.Damaged(number, self.url, at, what)

    def end(self, line: bytes) -> None:
        """Ends as the other side says."""
        try:
            said = json.loads(line)
            status, text = said.get("fault"), str(said.get("text"))
        except (ValueError, AttributeError):
            raise Cut(f"it says {shown(line)}") from None
        if status == errors.UNFIT:
            raise errors.Unfit(f"{self.url}: {text}")
        if status == errors.PASSING:
            raise Cut(text)
        if status is not None:
            raise errors.FileError(f"{self.url}: {text}")

    def bear(self, why: str) -> None:
        """Lets a cut pass, unless the feed was never reached, or isn't followed."""
        if not self.follows or not self.was_there:
            raise errors.Passing(f"{self.url} can't be read: {why}") from None
        if not self.is_cut:
            log.warning(
                f"{self.url}: {why}. It is tried again, at least every {LONGEST_DELAY:.0f} seconds"
            )
        self.is_cut = True

    def bear_damaged(self, damaged: errors.Damaged) -> None:
        now = time.monotonic()
        self.wrong = now if self.wrong is None else self.wrong
        if not self.follows or now - self.wrong > PATIENCE:
            raise damaged

    def rest(self) -> None:
        delay, self.delay = self.delay, min(2 * self.delay, LONGEST_DELAY)
        rest(delay, self.check, 0.1)
