#!/usr/bin/python3
"""Another account puts links and locks in root's way, where root works on a store in its folder.

  tools/hostile/files.py [--tries N]

No server and no program is needed. As another account than root there is nobody to be in the way
of, and nothing is done. The last line is `N passed, M failed`.

exit status: 0 all passed; 1 something didn't; 2 usage error
"""

from __future__ import annotations

import argparse
import contextlib
import fcntl
import importlib
import json
import os
import signal
import socket
import subprocess
import sys
import tempfile
from collections.abc import Callable, Iterator
from pathlib import Path

CONNECT = Path(__file__).resolve().parents[2] / "connect"
NOBODY = 65534


class Wrong(Exception):
    """The other account had its way."""


class Place:
    """A folder of the other account with a store, and one of root's with a file."""

    def __init__(self, folder: Path) -> None:
        self.folder, self.secret, self.store = (
            folder / "theirs",
            folder / "roots",
            folder / "theirs/copy.db",
        )
        for it, mode in ((self.folder, 0o700), (self.secret, 0o700)):
            it.mkdir(mode=mode)
        self.victim = self.secret / "victim"
        self.victim.write_text("root's own")
        sys.path.insert(0, str(CONNECT))
        store = importlib.import_module("tests.stores").Store(str(self.store))
        store.table(1, "t")
        store.row(1, "1", "x")
        store.close()
        for path in (self.folder, self.store):
            os.chown(path, NOBODY, NOBODY)

    def check(self) -> None:
        """Fails where root's file isn't as it was."""
        about = self.victim.stat()
        if (about.st_uid, about.st_gid, self.victim.read_text()) != (0, 0, "root's own"):
            said = self.victim.read_text()[:50]
            raise Wrong(f"root's file is of {about.st_uid}:{about.st_gid} and has {said!r}")


@contextlib.contextmanager
def as_nobody(call: Callable[[], None]) -> Iterator[None]:
    """The other account does this again and again meanwhile."""
    child = os.fork()
    if not child:
        try:
            os.setgroups([])
            os.setresgid(NOBODY, NOBODY, NOBODY)
            os.setresuid(NOBODY, NOBODY, NOBODY)
            while True:
                with contextlib.suppress(OSError):
                    call()
        finally:
            os._exit(0)
    try:
        yield
    finally:
        os.kill(child, signal.SIGKILL)
        os.waitpid(child, 0)


def asks(place: Place) -> tuple[int, str]:
    """Has root export the store, which is followed. Its status, and what it says."""
    into = place.secret / "rows.db"
    words = [str(CONNECT / "pgsub-connect"), "export", "--store", str(place.store)]
    done = subprocess.run(
        [*words, "--into", str(into)], stdin=subprocess.DEVNULL, capture_output=True, timeout=60
    )
    if into.exists():
        raise Wrong("root has rows that no follower has copied")
    return done.returncode, done.stderr.decode(errors="replace")


@contextlib.contextmanager
def followed(place: Place) -> Iterator[None]:
    """As while the other account follows into the store."""
    checkpoint = place.store.with_name("copy.db.connector")
    with open(checkpoint, "w") as lock:
        os.chown(checkpoint, NOBODY, NOBODY)
        fcntl.flock(lock, fcntl.LOCK_EX)
        yield
    checkpoint.unlink()


def answered(place: Place, tries: int) -> None:
    """The other account answers root, and puts a link in the place of the copy."""
    made = socket.socket(socket.AF_UNIX)
    made.bind(str(place.folder / "copy.db.sock"))
    os.chown(place.folder / "copy.db.sock", NOBODY, NOBODY)

    def answer() -> None:
        # (the one that listens is the one whose account root sees)
        made.listen()
        client, _ = made.accept()
        with client:
            asked = json.loads(client.makefile().readline())
            os.symlink(place.victim, asked["into"])
            client.sendall(b'{"copied": "0/130"}\n')

    with made, followed(place), as_nobody(answer):
        for _ in range(tries):
            status, said = asks(place)
            if status != 3 or "a link in the place of a copy" not in said:
                raise Wrong(f"status {status}: {said}")
            place.check()


def misled(place: Place, tries: int) -> None:
    """A link to another socket of root's takes the place of the follower's."""
    with socket.socket(socket.AF_UNIX) as other, followed(place):
        other.bind(str(place.secret / "sock"))
        other.listen()
        other.settimeout(0.1)
        (place.folder / "copy.db.sock").symlink_to(place.secret / "sock")
        status, said = asks(place)
        if status != 3 or "not a socket" not in said:
            raise Wrong(f"status {status}: {said}")
        with contextlib.suppress(TimeoutError):
            other.accept()
            raise Wrong("root asked another socket")


def linked(place: Place, tries: int) -> None:
    """A link takes the name of root's new file in a sticky folder, whatever the kernel does."""
    folder = place.folder.with_name("sticky")
    folder.mkdir()
    folder.chmod(0o1777)
    log = place.secret / "app.db-wal"
    log.write_text("rows")
    link = folder / "rows.db"
    link.symlink_to(place.secret / "app.db")
    os.lchown(link, NOBODY, NOBODY)
    for command in ("export", "snapshot"):
        words = [
            str(CONNECT / "pgsub-connect"),
            command,
            "--store",
            str(place.store),
            "--into",
            str(link),
        ]
        done = subprocess.run(words, stdin=subprocess.DEVNULL, capture_output=True)
        if done.returncode != 3 or b"isn't followed" not in done.stderr:
            raise Wrong(
                f"{command}: status {done.returncode}: {done.stderr.decode(errors='replace')}"
            )
        if sorted(it.name for it in place.secret.iterdir()) != ["app.db-wal", "victim"]:
            raise Wrong(
                f"{command}: root's folder has {sorted(it.name for it in place.secret.iterdir())}"
            )
    place.check()


def locked(place: Place, tries: int) -> None:
    """Another account can't lock the checkpoint of a follower whose files it may read."""
    store = place.secret / "copy.db"
    words = [
        str(CONNECT / "pgsub-connect"),
        "follow",
        "--store",
        str(store),
        "--create",
        "--no-copy",
        "--mode",
        "644",
    ]
    place.secret.chmod(0o755)
    with socket.socket(socket.AF_UNIX) as server:
        # (it doesn't answer: a start that ended would leave no checkpoint)
        server.bind(str(place.secret / ".s.PGSQL.5432"))
        server.listen()
        server.settimeout(60)
        child = subprocess.Popen(
            [*words, "--dsn", f"host={place.secret}"], stdin=subprocess.DEVNULL
        )
        try:
            client, _ = server.accept()
            with client:
                refused(store.with_name("copy.db.connector"))
        finally:
            child.kill()
            child.wait()


def refused(checkpoint: Path) -> None:
    """Fails where another account can lock a checkpoint."""
    if not checkpoint.exists():
        raise Wrong("there is no checkpoint")
    code = "import fcntl, sys; fcntl.flock(open(sys.argv[1]), fcntl.LOCK_EX | fcntl.LOCK_NB)"
    done = subprocess.run(
        [sys.executable, "-c", code, str(checkpoint)],
        user=NOBODY,
        group=NOBODY,
        extra_groups=[],
        capture_output=True,
    )
    if b"PermissionError" not in done.stderr:
        raise Wrong(f"it is locked: {done.stderr.decode(errors='replace')}")


def main() -> int:
    about, _, more = (__doc__ or "").partition("\n\n")
    parser = argparse.ArgumentParser(
        description=about, epilog=more, formatter_class=argparse.RawDescriptionHelpFormatter
    )
    parser.add_argument(
        "--tries", type=int, default=3, help="how often a race is tried (default: 3)"
    )
    words = parser.parse_args()
    if os.geteuid() != 0:
        print("passed over: it needs the rights of root\n0 passed, 0 failed")
        return 0
    failed = 0
    cases = (answered, misled, linked, locked)
    for case in cases:
        with tempfile.TemporaryDirectory(prefix="hostile-") as folder:
            os.chmod(folder, 0o755)
            try:
                case(Place(Path(folder)), words.tries)
            except Wrong as wrong:
                failed += 1
                print(f"FAILED {case.__name__}: {wrong}")
    print(f"{len(cases) - failed} passed, {failed} failed")
    return 1 if failed else 0


if __name__ == "__main__":
    sys.exit(main())
