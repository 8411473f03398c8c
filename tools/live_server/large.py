"""One transaction of 900 MB, in one version of the protocol. By hand: it takes minutes and some
gigabytes of disk."""

from __future__ import annotations

import hashlib
import json
import subprocess
import time
from collections.abc import Iterator

from .cluster import Cluster
from .errors import Failed
from .follower import Supervisor, is_confirmed, wait_until
from .options import Options

ROWS, SIZE = 900, 1_000_000
TABLE = (
    "CREATE TABLE large (id int PRIMARY KEY, word text)",
    "ALTER TABLE large ALTER word SET STORAGE EXTERNAL",
)
SLOT = "pgsub"


def digests_of_store(options: Options, store: str) -> Iterator[tuple[str, str]]:
    """The key and the digest of each row, read line by line."""
    with subprocess.Popen(
        [options.program, "dump", "--store", store], stdout=subprocess.PIPE
    ) as dump:
        assert dump.stdout
        for line in dump.stdout:
            if line.startswith(b"["):
                key, word = json.loads(line)[2]
                yield key, hashlib.md5(word.encode()).hexdigest()
    if dump.returncode:
        raise Failed(f"dump: status {dump.returncode}")


def follow(options: Options, proto: int) -> str:
    """Follows it, and compares each row by its digest."""
    cluster = Cluster(
        options.installed, options.folder, {"max_wal_size": "4GB", "wal_sender_timeout": "60s"}
    )
    store = options.folder / f"{cluster.folder.name}.db"
    words = options.words(cluster.dsn(), store, "--create", "--proto", str(proto))
    supervisor = Supervisor(words, options.folder / "connector.log")
    try:
        cluster.start()
        cluster.run("CREATE DATABASE shop", database="postgres")
        cluster.run(*TABLE, "CREATE PUBLICATION pgsub FOR TABLE large")
        supervisor.begin()
        wait_until(
            lambda: is_confirmed(cluster, SLOT, "0/1"), "the first copy", 60, supervisor.check
        )
        began = time.monotonic()
        cluster.run(
            f"INSERT INTO large SELECT it, repeat(md5(it::text), {SIZE // 32}) FROM generate_series(1, {ROWS}) it"
        )
        end = cluster.log_end()
        cluster.run("SELECT pg_logical_emit_message(true, 'live', 'end')")
        wait_until(
            lambda: is_confirmed(cluster, SLOT, end), f"confirming {end}", 1800, supervisor.check
        )
        took = time.monotonic() - began
        supervisor.finish()
        if supervisor.starts != 1:
            raise Failed(f"it was started {supervisor.starts} times")
        with cluster.connect() as session:
            expected = {
                row[0]: row[1] for row in session.rows("SELECT id::text, md5(word) FROM large")
            }
        if dict(digests_of_store(options, str(store))) != expected or len(expected) != ROWS:
            raise Failed("the rows differ")
        return f"{ROWS} rows of {SIZE} bytes in {took:.0f} s"
    finally:
        supervisor.kill()
        cluster.remove()
