"""Two PostgreSQL servers on the loopback interface, of which one publishes to the other, each with
all its data in a folder."""

import contextlib
import os
import shutil
import subprocess
import sys
import time
from pathlib import Path

TOP = Path(__file__).resolve().parent.parent.parent
sys.path[:0] = [str(TOP / "connect"), str(TOP / "tools"), str(TOP / "bench")]
from histories_model.recording import sessions_of  # noqa: E402

from pgsub_connect.server.connection import Connection  # noqa: E402

SETTINGS = {
    "fsync": "on",
    "synchronous_commit": "on",
    "full_page_writes": "on",
    "wal_level": "logical",
    "max_replication_slots": "40",
    "max_wal_senders": "40",
    "max_logical_replication_workers": "4",
    "shared_buffers": "512MB",
    "logical_decoding_work_mem": "1GB",
    "max_wal_size": "16GB",
    "checkpoint_timeout": "1h",
    "autovacuum": "off",
    "wal_retrieve_retry_interval": "10ms",
    "listen_addresses": "'127.0.0.1'",
    "unix_socket_directories": "''",
    "client_min_messages": "warning",
}
TABLE = "CREATE TABLE t (c0 text PRIMARY KEY, c1 text, c2 text, c3 text)"
# what follows another is each of these texts at the next number; a row has four texts of ten bytes
CELLS = ", ".join(f"lpad((n + {k})::text, 10, '0')" for k in range(1, 4))
MAKERS = (
    f"""CREATE PROCEDURE put(rows bigint, each bigint) LANGUAGE plpgsql AS $$ BEGIN
    FOR start IN 0 .. rows - 1 BY each LOOP
        INSERT INTO t SELECT lpad(n::text, 10, '0'), {CELLS} FROM generate_series(start, start + each - 1) n;
        COMMIT;
    END LOOP; END $$""",
    # rows at random: a prime, taken again and again, meets all of them before one comes twice
    f"""CREATE PROCEDURE change(rows bigint, changes bigint, each bigint) LANGUAGE plpgsql AS $$ BEGIN
    FOR start IN 0 .. changes - 1 BY each LOOP
        UPDATE t SET c1 = a, c2 = b, c3 = c
        FROM (SELECT lpad((n * 2654435761 % rows)::text, 10, '0') key, {CELLS} FROM generate_series(start, start + each - 1) n) made (key, a, b, c)
        WHERE c0 = key;
        COMMIT;
    END LOOP; END $$""",
)


def binaries():
    """Returns the folder of the server's programs."""
    found = shutil.which("initdb")
    folders = [Path(found).resolve().parent] if found else []
    folders += sorted(Path("/usr/lib/postgresql").glob("*/bin"), reverse=True)
    for folder in folders:
        if (folder / "pg_ctl").exists():
            return folder
    sys.exit("measure: PostgreSQL's server is needed (Debian: apt-get install postgresql)")


class Server:
    """A server, and a connection to it."""

    def __init__(self, folder, port):
        self.data, self.port = folder / f"server-{port}", port
        self.dsn = f"host=127.0.0.1 port={port} user=postgres dbname=postgres"
        self.data.mkdir(mode=0o700)
        # a server doesn't run as root
        self.prefix = []
        if os.geteuid() == 0:
            self.prefix = ["setpriv", "--reuid=postgres", "--regid=postgres", "--init-groups"]
            shutil.chown(self.data, "postgres", "postgres")
        self.run("initdb", "--auth=trust", "--username=postgres", "--encoding=UTF8", "--locale=C")
        with (self.data / "postgresql.auto.conf").open("a") as settings:
            settings.writelines(
                f"{name} = {value}\n" for name, value in {**SETTINGS, "port": port}.items()
            )
        self.run("pg_ctl", "--wait", f"--log={self.data}/log", "start")
        self.connection = Connection(self.dsn, quiet=True)

    def run(self, program, *words):
        command = [*self.prefix, binaries() / program, f"--pgdata={self.data}", *words]
        subprocess.run(command, check=True, cwd="/", stdout=subprocess.DEVNULL)

    def ask(self, command):
        """Runs a statement, and returns the first value of a query's first row."""
        if command.startswith("SELECT"):
            return self.connection.value(command)
        self.connection.run(command)
        return None

    def stop(self):
        self.connection.close()
        self.run("pg_ctl", "--wait", "--mode=immediate", "stop")


@contextlib.contextmanager
def started(folder, port):
    """The two servers: one with a publication of its table, and one with the same table."""
    with contextlib.ExitStack() as stack:
        publisher, subscriber = Server(folder, port), None
        stack.callback(publisher.stop)
        subscriber = Server(folder, port + 1)
        stack.callback(subscriber.stop)
        for server in (publisher, subscriber):
            server.ask(TABLE)
        for maker in MAKERS:
            publisher.ask(maker)
        publisher.ask("CREATE PUBLICATION p FOR TABLE t")
        yield publisher, subscriber


def make_changes(publisher, kind, changes, each):
    """Makes the changes, of which a quarter of kind `updates` are the rows that the others
    update."""
    if kind == "inserts":
        publisher.ask(f"CALL put({changes}, {each})")
        return
    rows = changes // 4
    publisher.ask(f"CALL put({rows}, {min(rows, max(each, 100))})")
    publisher.ask(f"CALL change({rows}, {changes - rows}, {each})")


def record(publisher, slot, file):
    """Records what is in a slot as the plain bytes of a session, and returns them."""
    recording = file.with_suffix(".pgx")
    words = [
        "--dsn",
        publisher.dsn,
        "--slot",
        slot,
        "--publication",
        "p",
        "--until",
        "now",
        "--bytes",
        str(1 << 40),
        "--record",
        recording,
    ]
    subprocess.run(
        [TOP / "connect/pgsub-connect", "record", *words], check=True, stderr=subprocess.DEVNULL
    )
    with file.open("wb") as out:
        out.writelines(chunk for chunks in sessions_of(recording.read_bytes()) for chunk in chunks)
    recording.unlink()
    return file


class Subscription:
    """A subscription to one slot, by which the worker applies what is in it."""

    def __init__(self, publisher, subscriber, slot):
        self.publisher, self.subscriber, self.slot = publisher, subscriber, slot
        subscriber.ask("TRUNCATE t")
        subscriber.ask(
            f"CREATE SUBSCRIPTION s CONNECTION '{publisher.dsn}' PUBLICATION p"
            f" WITH (slot_name = {slot}, create_slot = false, enabled = false, copy_data = false, synchronous_commit = 'on')"
        )
        self.origin = "pg_" + subscriber.ask("SELECT oid FROM pg_subscription WHERE subname = 's'")
        # else its memory would be written during the run
        subscriber.ask("CHECKPOINT")

    def worker(self):
        return self.subscriber.ask("SELECT max(pid) FROM pg_stat_subscription WHERE subname = 's'")

    def sender(self):
        return self.publisher.ask(
            f"SELECT active_pid FROM pg_replication_slots WHERE slot_name = '{self.slot}'"
        )

    def is_at(self, position):
        return (
            self.subscriber.ask(
                f"SELECT pg_replication_origin_progress('{self.origin}', false) >= '{position}'"
            )
            == "t"
        )

    def start(self):
        """Starts the worker, and returns the process that applies and the one that sends."""
        self.subscriber.ask("ALTER SUBSCRIPTION s ENABLE")
        while not (self.worker() and self.sender()):
            time.sleep(0.001)
        return self.worker(), self.sender()

    def wait_for(self, position):
        while not self.is_at(position):
            time.sleep(0.002)

    def drop(self):
        """Drops the subscription, and the slot with it."""
        self.subscriber.ask("ALTER SUBSCRIPTION s DISABLE")
        while self.worker():
            time.sleep(0.01)
        self.subscriber.ask("DROP SUBSCRIPTION s")
