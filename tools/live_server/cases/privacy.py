"""Who may read what: modes of files, what the filter gets to know, texts of the server on a
terminal."""

from __future__ import annotations

import os
import signal
import sqlite3
import subprocess
import sys
from pathlib import Path

from ..errors import Failed
from ..follower import wait_until
from ..place import SERVER, Place
from .case import Case

SECRET = "geheim"
# An account that isn't root.
OTHER = 65534
# Reads a copy as another account does.
READ = """
import sqlite3, sys
store = sqlite3.connect(f"file:{sys.argv[1]}?mode=ro", uri=True)
print(store.execute("SELECT count(*) FROM rel").fetchone()[0])
"""


# The ends of names of what the follower alone reads: the checkpoint, whose lock is the follower's,
# and how the filter left the store.
OWN = (".connector", ".left")


def modes(place: Place, *words: str) -> dict[str, int]:
    """The modes of all files beside a follower that runs, while it does and after it has ended. The
    folder of open transactions is its owner's alone."""
    beside = {"status": "--status-file", "sessions.pgx": "--record"}
    more = [it for name, option in beside.items() for it in (option, str(place.folder / name))]
    child = place.start("--create", "--spool-memory", "1MB", *more, *words)
    place.catch_up(child)
    wait_until(Path(place.folder / "status").exists, "writing the status file", 60, child.check)
    found = {
        it.name: it.stat().st_mode & 0o777
        for it in place.folder.iterdir()
        if it.is_file() and it != place.log
    }
    if (mode := place.beside(".spool").stat().st_mode & 0o777) != 0o700:
        raise Failed(f"the folder of open transactions has mode {mode:o}")
    child.stop()
    return {
        **found,
        **{
            it.name: it.stat().st_mode & 0o777
            for it in place.folder.iterdir()
            if it.is_file() and it != place.log
        },
    }


def check_modes(place: Place, umask: int, wanted: int, *words: str) -> None:
    """Follows under a umask, and fails unless each file has this mode, but for those that are the
    follower's alone."""
    place.stock()
    before = os.umask(umask)
    try:
        found = modes(place, *words)
    finally:
        os.umask(before)
    wrong = {
        name: oct(mode)
        for name, mode in found.items()
        if mode != (0o600 if name.endswith(OWN) else wanted)
    }
    if wrong or len(found) < 4:
        raise Failed(f"modes of {len(found)} files: {wrong}")


def private(place: Place) -> None:
    """Makes all files so that their owner alone reads them, whatever the umask."""
    check_modes(place, 0, 0o600)


def shared(place: Place) -> None:
    """Makes the store's files with the mode that was asked for, whatever the umask."""
    check_modes(place, 0o077, 0o640, "--mode", "640")


def filter_environment(place: Place) -> None:
    """Gives the filter no password of the server."""
    place.stock()
    seen = place.folder / "environment"
    wrapper = place.folder / "wrapped"
    wrapper.write_text(f"#!/bin/sh\nenv >'{seen}'\nexec '{place.options.program}' \"$@\"\n")
    wrapper.chmod(0o755)
    words = [
        str(wrapper) if it == str(place.options.program) else it for it in place.words("--create")
    ]
    child = place.started(words, {"PGPASSWORD": SECRET, "PGSSLPASSWORD": SECRET})
    place.catch_up(child)
    child.stop()
    if SECRET in seen.read_text():
        raise Failed("the filter has the password in its environment")


def escaped(place: Place) -> None:
    """Shows what the server says without control characters, and so that no line of it looks like
    one of its own."""
    name = "x\x1b[2J\n2026-01-01T00:00:00Z pgsub-connect: info: following slot forged"
    quoted = name.replace("\\", "\\\\").replace("'", "\\'")
    dsn = f"host={place.cluster.folder} port={place.cluster.port} user={place.cluster.user} dbname='{quoted}'"
    said = place.ends(SERVER, "does not exist", "--create", dsn=dsn)
    if "\x1b" in said or any(line.startswith("2026-01-01T00:00:00Z") for line in said.splitlines()):
        raise Failed(repr(said))


def readers(place: Place) -> None:
    """Makes copies for readers that an account opens which may write neither the file nor its
    folder."""
    place.stock()
    rows = place.folder / "rows.db"
    child = place.start("--create", "--snapshot", str(rows), "--mode", "644")
    place.catch_up(child)
    child.signal(signal.SIGUSR1)
    wait_until(rows.exists, "copying the store", 60, child.check)
    child.stop()
    if rows.read_bytes()[18:20] != b"\1\1":
        raise Failed("the copy needs a log beside it")
    count = (
        sqlite3.connect(f"file:{rows}?mode=ro", uri=True)
        .execute("SELECT count(*) FROM rel")
        .fetchone()[0]
    )
    if os.getuid() == 0:
        place.folder.chmod(0o755)
        place.options.folder.chmod(0o711)
        done = subprocess.run(
            [sys.executable, "-c", READ, str(rows)], user=65534, capture_output=True, check=False
        )
        if done.stdout.decode().strip() != str(count):
            raise Failed(f"another account: {done.stderr.decode(errors='replace')}")


def added_by_root(place: Place) -> None:
    """Leaves the files of a store their owner and mode where root adds tables while the service of
    another account is stopped."""
    place.stock()
    place.follow("--create", "--mode", "640")
    for it in (place.folder, *place.folder.iterdir()):
        os.chown(it, OTHER, OTHER)
    before = owners(place)
    for command in (("add", "--table", "stock"), ("refresh", "--yes")):
        place.run("ALTER TABLE stock ADD more int")
        place.subcommand(
            command[0], "--dsn", place.dsn(), "--store", str(place.store), *command[1:]
        )
        if (found := owners(place)) != before:
            raise Failed(f"{command[0]}: {found} in place of {before}")
        place.run("ALTER TABLE stock DROP more")
    place.follow("--mode", "640")
    place.equal()


def owners(place: Place) -> dict[str, tuple[int, int, int]]:
    """Owner, group and mode of each file of the store."""
    found = {
        it.name: it.stat() for it in place.folder.iterdir() if it.is_file() and it != place.log
    }
    return {name: (it.st_uid, it.st_gid, it.st_mode & 0o777) for name, it in found.items()}


CASES = (
    Case("files-for-their-owner-alone", private),
    Case("files-with-a-mode-for-others", shared),
    Case("filter-gets-no-password", filter_environment),
    Case("text-of-the-server-is-escaped", escaped),
    Case("copy-for-another-account", readers),
    Case("add-by-root-keeps-the-owner", added_by_root, root=True),
)
