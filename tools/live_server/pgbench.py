"""pgbench's own load beside the initial copy and the following, of which parts are killed."""

from __future__ import annotations

import contextlib
import subprocess
import threading

from .cluster import Cluster
from .errors import Failed
from .follower import checkpoint_of
from .killing import Run, killed
from .options import Options

TABLES = ("pgbench_accounts", "pgbench_branches", "pgbench_tellers", "pgbench_history")
# How many accounts there are for each unit of pgbench's scale.
ACCOUNTS = 100_000
CLIENTS = 4
# Transactions a second. Without a limit the follower's lag would be that of the machine.
RATE = 200


def place(cluster: Cluster, database: str = "shop") -> list[str]:
    """The words that tell pgbench where a server's database is."""
    return [
        "-h",
        cluster.installed.inside(cluster.folder),
        "-p",
        str(cluster.port),
        "-U",
        cluster.user,
        database,
    ]


class PgBench(threading.Thread):
    """Runs pgbench, again and again where a killed server ends it."""

    def __init__(self, cluster: Cluster, scale: int, rate: int = RATE) -> None:
        super().__init__(daemon=True)
        self.cluster, self.ended = cluster, threading.Event()
        self.child: subprocess.Popen[bytes] | None = None
        cluster.call("pgbench", "-i", "-q", "-s", str(scale), *place(cluster))
        cluster.run(
            "ALTER TABLE pgbench_history REPLICA IDENTITY FULL",
            "CREATE PUBLICATION pgsub FOR ALL TABLES",
        )
        self.filled = 0
        # (it would count the branches, of which there may be more)
        more = [
            "-n",
            "-c",
            str(CLIENTS),
            "-j",
            "2",
            "-R",
            str(rate),
            "-T",
            "100000",
            "-D",
            f"scale={scale}",
        ]
        self.words = cluster.installed.words("pgbench", *more, *place(cluster))

    def fill(self, rows: int) -> None:
        """Makes rows of the tables that are small otherwise, which pgbench doesn't look at."""
        series = f"generate_series(100000, {99999 + rows}) it"
        self.cluster.run(
            f"INSERT INTO pgbench_branches SELECT it, it, 'more' FROM {series}",
            f"INSERT INTO pgbench_tellers SELECT it, 1, it, 'more' FROM {series}",
            f"INSERT INTO pgbench_history SELECT it, 1, it, 0, now(), 'more' FROM {series}",
        )
        self.filled = rows

    def begin(self) -> None:
        self.start()

    def run(self) -> None:
        with open(self.cluster.folder / "pgbench", "ab") as said:
            while not self.ended.is_set():
                self.child = subprocess.Popen(
                    self.words, cwd="/", stdin=subprocess.DEVNULL, stdout=said, stderr=said
                )
                self.child.wait()
                self.ended.wait(0.2)

    def end(self) -> int:
        if self.is_alive():
            self.ended.set()
            if self.child:
                self.child.terminate()
            self.join(30)
        with contextlib.suppress(Exception):
            return int(self.cluster.value("SELECT count(*) FROM pgbench_history")) - self.filled
        return 0


def follow(options: Options, proto: int) -> str:
    """The whole of it, in one version of the protocol."""

    def load(cluster: Cluster) -> PgBench:
        found = PgBench(cluster, max(1, options.rows // ACCOUNTS))
        found.fill(options.rows // 2)
        return found

    run = Run(options, proto, load)
    said = killed(run, 4, TABLES, lambda: None)
    if found := checkpoint_of(run.store)[0].get("found"):
        raise Failed(f"found, with nothing altered: {found}")
    return said
