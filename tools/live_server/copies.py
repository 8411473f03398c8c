"""Servers whose files begin as those of another one: standbys."""

from __future__ import annotations

from collections.abc import Mapping
from pathlib import Path

from .cluster import Cluster
from .follower import wait_until


class Standby(Cluster):
    """A standby of a server that runs. It has a slot of its own there, so that it may be off for a
    while."""

    def __init__(
        self,
        primary: Cluster,
        folder: Path,
        settings: Mapping[str, str] = {},
        slot: str = "standby",
    ) -> None:
        self.primary, self.slot = primary, slot
        super().__init__(primary.installed, folder, settings)

    def prepare(self, settings: Mapping[str, str], encoding: str) -> None:
        """Copies the primary's files. The encoding is the primary's, too."""
        source, inside = self.primary, self.installed.inside
        source.run(
            f"SELECT pg_create_physical_replication_slot('{self.slot}', true)", database="postgres"
        )
        words = [
            "-h",
            inside(source.folder),
            "-p",
            str(source.port),
            "-U",
            source.user,
            "--checkpoint=fast",
            "--no-sync",
        ]
        self.call("pg_basebackup", "-D", inside(self.data), *words)
        self.configure(
            {
                "unix_socket_directories": inside(self.folder),
                "hot_standby_feedback": "on",
                "primary_slot_name": self.slot,
                "primary_conninfo": f"host={inside(source.folder)} port={source.port} user={source.user} dbname=postgres",
                **settings,
            }
        )
        (self.data / "standby.signal").touch()

    def log_end(self) -> str:
        return self.value("SELECT pg_last_wal_replay_lsn()", "postgres")

    def has(self, lsn: str) -> bool:
        return self.value(f"SELECT pg_last_wal_replay_lsn() >= '{lsn}'", "postgres") == "t"

    def catch_up(self) -> None:
        """Waits until it has replayed what the primary has."""
        end = self.primary.value("SELECT pg_current_wal_flush_lsn()", "postgres")
        wait_until(lambda: self.has(end), f"replaying {end}")

    def promote(self) -> None:
        self.control("promote")

    def synchronize(self, slot: str) -> None:
        """Waits until it has the primary's failover slot, which is followed meanwhile.

        The primary has to log its running transactions for that.
        """
        here = f"SELECT count(*) FROM pg_replication_slots WHERE slot_name = '{slot}' AND synced AND NOT temporary"

        def is_there() -> bool:
            self.primary.run("SELECT pg_log_standby_snapshot()", database="postgres")
            self.catch_up()
            self.run("SELECT pg_sync_replication_slots()", database="postgres")
            return self.value(here, "postgres") == "1"

        wait_until(is_there, f"synchronizing the slot {slot}", 120)
