"""A PostgreSQL server of its own in a folder, on a unix socket that only its account and root can
reach."""

from __future__ import annotations

import contextlib
import os
import pwd
import shutil
import subprocess
import tempfile
from collections.abc import Mapping
from pathlib import Path

import psycopg

from .errors import Unusable
from .installed import Installation
from .patience import Patience
from .sessions import Session

SETTINGS = {
    "wal_level": "logical",
    "listen_addresses": "",
    "unix_socket_permissions": "0700",
    "fsync": "off",
    "logical_decoding_work_mem": "64kB",
    "max_wal_senders": "20",
    "max_replication_slots": "20",
    "max_connections": "60",
    "max_prepared_transactions": "5",
    "wal_sender_timeout": "6s",
    "deadlock_timeout": "100ms",
    "log_min_messages": "warning",
}


class Cluster:
    """The server. A server doesn't run as root: then it runs as the account of its installation."""

    def __init__(
        self,
        installed: Installation,
        folder: Path,
        settings: Mapping[str, str] = {},
        encoding: str = "UTF8",
        files: Path | None = None,
    ) -> None:
        """Makes a new one, or one of another server's files."""
        self.installed, self.port = installed, 5432
        self.folder = Path(tempfile.mkdtemp(prefix="server-", dir=installed.work_folder(folder)))
        self.data, self.log = self.folder / "data", self.folder / "log"
        self.user = (
            installed.account.name if installed.account else pwd.getpwuid(os.getuid()).pw_name
        )
        if installed.account:
            os.chown(self.folder, installed.account.uid, installed.account.gid)
        if files is None:
            self.prepare({**SETTINGS, **settings}, encoding)
        else:
            subprocess.run(["cp", "-a", files, self.data], check=True)
            self.configure(
                {"unix_socket_directories": self.installed.inside(self.folder), **settings}
            )

    def prepare(self, settings: Mapping[str, str], encoding: str) -> None:
        words = [
            "-A",
            "trust",
            "-U",
            self.user,
            "-E",
            encoding,
            "--locale=C" if encoding != "UTF8" else "--locale=C.UTF-8",
        ]
        self.call("initdb", "-D", self.installed.inside(self.data), *words, "--no-sync")
        self.configure({"unix_socket_directories": self.installed.inside(self.folder), **settings})
        if self.installed.root != Path("/"):
            # (a root folder has no memory of its own to share)
            self.configure({"dynamic_shared_memory_type": "mmap"})

    def configure(self, settings: Mapping[str, str]) -> None:
        """Adds settings to the server's file, of which the last ones count."""
        with open(self.data / "postgresql.conf", "a", encoding="utf-8") as file:
            file.writelines(f"{name} = '{value}'\n" for name, value in settings.items())

    def call(self, program: str, *words: str) -> str:
        return self.installed.call(program, *words, log=self.folder / "called")

    def control(self, *words: str) -> None:
        self.call("pg_ctl", "-D", self.installed.inside(self.data), "-w", "-t", "120", *words)

    def start(self) -> None:
        self.control("-l", self.installed.inside(self.log), "start")

    def stop(self, mode: str = "fast") -> None:
        self.control("-m", mode, "stop")

    def be_standby(self) -> None:
        """Has the next start begin as a standby."""
        signal = self.data / "standby.signal"
        signal.touch()
        if self.installed.account:
            os.chown(signal, self.installed.account.uid, self.installed.account.gid)

    def promote(self) -> None:
        """Starts it as a standby and makes a primary of it, with a timeline of its own."""
        self.be_standby()
        self.start()
        self.control("promote")

    def rewind(self, source: Cluster) -> None:
        """Takes back what another server hasn't that has gone on from this one's files. The next
        start begins as its standby."""
        from_there = source.dsn_inside("postgres")
        self.call(
            "pg_rewind", "-D", self.installed.inside(self.data), "--source-server", from_there
        )
        # (the other one's settings come, too)
        own = {"unix_socket_directories": self.installed.inside(self.folder)}
        self.configure({**own, "primary_slot_name": "", "primary_conninfo": from_there})
        self.be_standby()

    def dsn(self, database: str = "shop", user: str = "") -> str:
        limit = round(10 * Patience.factor)
        return f"host={self.folder} port={self.port} user={user or self.user} dbname={database} connect_timeout={limit}"

    def dsn_inside(self, database: str = "shop") -> str:
        """A connection string for another server of the same installation."""
        return self.dsn(database).replace(str(self.folder), self.installed.inside(self.folder))

    def connect(self, database: str = "shop") -> Session:
        return Session(self.dsn(database))

    def run(self, *commands: str, database: str = "shop") -> None:
        with self.connect(database) as session:
            session.run(*commands)

    def value(self, query: str, database: str = "shop") -> str:
        with self.connect(database) as session:
            return session.value(query)

    def log_end(self) -> str:
        return self.value("SELECT pg_current_wal_insert_lsn()", "postgres")

    def said(self) -> str:
        """The server's log."""
        return self.log.read_text(encoding="utf-8", errors="replace") if self.log.exists() else ""

    def remove(self) -> None:
        with contextlib.suppress(Unusable, psycopg.Error):
            self.stop("immediate")
        shutil.rmtree(self.folder, ignore_errors=True)
