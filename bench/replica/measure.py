#!/usr/bin/python3
"""Applies the same changes by `pgsub apply --store`, by the baseline over a database in a file, and
by PostgreSQL's own apply worker, in turn.

`bench/run replica` builds the baseline and calls this.

The changes are made in a PostgreSQL server, and recorded from a slot. What is timed is up to the
last commit: of the two programs from their start until they have read the session (it ends in
keepalives, so that its last commit isn't among the bytes that they read last), of the worker from
when its subscription is enabled until its progress is the end of the last commit. The worker is fed
by a server that decodes its log meanwhile, on another processor, and the sessions of the two
programs are in a file; their rows are printed after the time that is told, and compared. All three
sync each commit. Seconds are medians.
"""

import argparse
import filecmp
import os
import signal
import statistics
import struct
import subprocess
import sys
import tempfile
import time
from pathlib import Path

import servers
from built import add_program, check_program
from processor import processor_seconds

KEEPALIVE = b"d" + struct.pack(">i", 22) + b"k" + struct.pack(">QqB", 0, 0, 0)
# more than either program reads at once
PADDING = KEEPALIVE * 4000

# what the table says of a session, the kind of its changes, their number, and how many are in a
# transaction
SESSIONS = (
    ("Inserts, 1 a transaction", "inserts", 5000, 1),
    ("Inserts, 100 a transaction", "inserts", 100000, 100),
    ("Inserts, 10,000 a transaction", "inserts", 200000, 10000),
    ("Updates at random, 1 a transaction", "updates", 5000, 1),
    ("Updates at random, 100 a transaction", "updates", 100000, 100),
    ("Updates at random, 10,000 a transaction", "updates", 200000, 10000),
    ("Growth, 100 a transaction", "inserts", 1000, 100),
    ("Growth, 100 a transaction", "inserts", 10000, 100),
    ("Growth, 100 a transaction", "inserts", 1000000, 100),
)


class Run:
    """What applying took: seconds by the clock and of a processor, the latter also up to the end of
    the program, and megabytes."""

    def __init__(self, wall, processor, whole=0.0, megabytes=0.0):
        self.wall, self.processor, self.whole, self.megabytes = wall, processor, whole, megabytes


def read_offset(pid, file):
    """Returns how far a process has read a file, None where it doesn't have it open."""
    for link in Path(f"/proc/{pid}/fd").iterdir():
        try:
            if os.readlink(link) == str(file):
                return int((link.parent.parent / "fdinfo" / link.name).read_text().split()[1])
        except FileNotFoundError:
            continue
    return None


class Reading:
    """How far a process has read a file, which it closes after the end."""

    def __init__(self, pid, file):
        self.pid, self.file, self.size = pid, file, file.stat().st_size
        self.was_open = False

    def is_over(self):
        offset = read_offset(self.pid, self.file)
        self.was_open = self.was_open or offset is not None
        return offset == self.size or (self.was_open and offset is None)


def has_ended(pid):
    return os.waitid(os.P_PID, pid, os.WEXITED | os.WNOHANG | os.WNOWAIT) is not None


def run_program(command, session, output):
    """Runs a program that reads a session, and returns what it took."""
    with output.open("wb") as out:
        began = time.monotonic()
        child = subprocess.Popen(command, stdout=out)
        reading = Reading(child.pid, session)
        while not reading.is_over() and not has_ended(child.pid):
            time.sleep(0.001)
        wall = time.monotonic() - began
        processor = None if has_ended(child.pid) else processor_seconds(child.pid)
        _, status, usage = os.wait4(child.pid, 0)
    child.returncode = os.waitstatus_to_exitcode(status)
    if child.returncode != 0:
        sys.exit(f"measure: {' '.join(map(str, command))} ended with status {child.returncode}")
    whole = usage.ru_utime + usage.ru_stime
    return Run(wall, processor if processor is not None else whole, whole, usage.ru_maxrss / 1000)


def remove_store(store):
    for file in store.parent.glob(store.name + "*"):
        file.unlink()


def run_worker(publisher, subscriber, slot, position):
    """Lets the apply worker take what is in a slot, and returns what it took, and what the process
    took that decodes and sends."""
    subscription = servers.Subscription(publisher, subscriber, slot)
    began = time.monotonic()
    worker, sender = subscription.start()
    subscription.wait_for(position)
    run = Run(time.monotonic() - began, processor_seconds(worker), processor_seconds(sender))
    subscription.drop()
    return run


def last_line(file):
    with file.open("rb") as lines:
        lines.seek(max(0, file.stat().st_size - 100))
        return lines.read().decode().splitlines()[-1]


def compare_rows(publisher, subscriber):
    question = "SELECT md5(string_agg(t::text, ',' ORDER BY c0)) FROM t"
    if publisher.ask(question) != subscriber.ask(question):
        sys.exit("measure: the worker's rows differ")


def median(runs):
    return Run(
        *(
            statistics.median(getattr(run, name) for run in runs)
            for name in ("wall", "processor", "whole", "megabytes")
        )
    )


def take_turns(options, publisher, subscriber, session, slots):
    """Runs the three in turn, and returns the median of each."""
    store, database = options.folder / "program.db", options.folder / "baseline.db"
    printed, expected = options.folder / "program.out", options.folder / "baseline.out"
    runs = ([], [], [])
    for slot in slots:
        for it in (store, database):
            remove_store(it)
        runs[0].append(
            run_program(
                [options.program, "apply", "--raw", "--store", store, session], session, printed
            )
        )
        runs[1].append(run_program([options.baseline, session, database], session, expected))
        if not filecmp.cmp(printed, expected, shallow=False):
            sys.exit("measure: the rows or the position differ")
        position = last_line(printed).split()[1]
        runs[2].append(run_worker(publisher, subscriber, slot, position))
        compare_rows(publisher, subscriber)
    return [median(these) for these in runs]


def measured(options, publisher, subscriber, kind, changes, each):
    """Makes changes and their session, and measures the three on them."""
    publisher.ask("TRUNCATE t")
    names = ["recorded", *(f"turn_{n}" for n in range(options.turns))]
    for name in names:
        publisher.ask(f"SELECT pg_create_logical_replication_slot('{name}', 'pgoutput')")
    servers.make_changes(publisher, kind, changes, each)
    session = servers.record(publisher, "recorded", options.folder / "session.raw")
    with session.open("ab") as out:
        out.write(PADDING)
    publisher.ask("SELECT pg_drop_replication_slot('recorded')")
    return take_turns(options, publisher, subscriber, session, names[1:])


def line(name, changes, here, baseline, worker):
    def told(run):
        return f"{run.wall:.2f} | {run.processor:.2f} | {changes / run.wall:,.0f}"

    ends = f"{here.whole:.2f} | {here.megabytes:.0f}"
    return f"| {name} | {changes:,} | {told(here)} | {ends} | {told(baseline)} | {told(worker)} | {worker.whole:.2f} |"


HEAD = """\
Of each of the three: seconds by the clock, seconds of a processor, changes a second by the clock. Of pgsub also the seconds of a processor up
to its end, with reading and printing all rows, and megabytes; of PostgreSQL also those of the process that decodes and sends.

| Session | Changes | pgsub: s | cpu s | changes/s | cpu s to the end | MB | C, SQLite: s | cpu s | changes/s | PostgreSQL: s | cpu s | changes/s | sender's cpu s |
|---|---|---|---|---|---|---|---|---|---|---|---|---|---|"""


def traced(command, calls, pid=None):
    """Runs a command under strace, or waits for it beside a process that is traced, and returns how
    often each call came."""
    with tempfile.NamedTemporaryFile("r") as counts:
        strace = [
            "strace",
            "-f",
            "-c",
            "-U",
            "calls,name",
            "-e",
            "trace=" + ",".join(calls),
            "-o",
            counts.name,
        ]
        if pid is None:
            subprocess.run([*strace, *command], check=True, stdout=subprocess.DEVNULL)
        else:
            tracer = subprocess.Popen([*strace, "-p", pid], stderr=subprocess.DEVNULL)
            time.sleep(1)
            command()
            tracer.send_signal(signal.SIGINT)
            tracer.wait()
        rows = [row.split() for row in Path(counts.name).read_text().splitlines()]
    return {
        row[1]: int(row[0])
        for row in rows
        if len(row) == 2 and row[0].isdigit() and row[1] in calls
    }


def count_syncs(options, publisher, subscriber):
    """Counts the calls that sync and write in 1,000 transactions of one row, by the three."""
    calls = ("fsync", "fdatasync", "sync_file_range", "write", "pwrite64", "pwritev")
    publisher.ask("TRUNCATE t")
    for name in ("recorded", "turn_0"):
        publisher.ask(f"SELECT pg_create_logical_replication_slot('{name}', 'pgoutput')")
    subscription = servers.Subscription(publisher, subscriber, "turn_0")
    worker, _ = subscription.start()

    def apply_live():
        servers.make_changes(publisher, "inserts", 1000, 1)
        while subscriber.ask("SELECT count(*) FROM t") != "1000":
            time.sleep(0.01)

    of_worker = traced(apply_live, calls, worker)
    subscription.drop()
    session = servers.record(publisher, "recorded", options.folder / "session.raw")
    publisher.ask("SELECT pg_drop_replication_slot('recorded')")
    print("\nCalls in 1,000 transactions of one row, by strace:\n")
    for name, command, database in (
        ("pgsub", [options.program, "apply", "--raw", "--store"], options.folder / "program.db"),
        ("C, SQLite", [options.baseline], options.folder / "baseline.db"),
    ):
        remove_store(database)
        words = [*command, database, session] if name == "pgsub" else [*command, session, database]
        print(f"- {name}: {traced(words, calls)}")
    print(f"- PostgreSQL's apply worker: {of_worker}")


def arguments():
    parser = argparse.ArgumentParser(
        description=__doc__, formatter_class=argparse.RawDescriptionHelpFormatter
    )
    parser.add_argument("baseline", type=Path, help="the built baseline")
    add_program(parser)
    parser.add_argument(
        "--folder",
        type=Path,
        metavar="PATH",
        help="a folder on the disk that is measured (default: a temporary one)",
    )
    parser.add_argument(
        "--port",
        type=int,
        default=54340,
        metavar="N",
        help="the first of two free ports (default: 54340)",
    )
    parser.add_argument(
        "--turns", type=int, default=5, metavar="N", help="how often each runs (default: 5)"
    )
    parser.add_argument("--quick", action="store_true", help="a tenth of the changes")
    parser.add_argument(
        "--only", default="", metavar="WORD", help="only sessions whose name has this word"
    )
    options = parser.parse_args()
    options.program = check_program(parser, options.program)
    return options


def main():
    options = arguments()
    signal.signal(signal.SIGTERM, lambda *_: sys.exit("measure: stopped"))
    with tempfile.TemporaryDirectory(dir=options.folder) as folder:
        options.folder = Path(folder)
        # the servers' user goes through it
        options.folder.chmod(0o755)
        with servers.started(options.folder, options.port) as (publisher, subscriber):
            print(HEAD, flush=True)
            for name, kind, changes, each in SESSIONS:
                if options.only not in name:
                    continue
                changes = changes // 10 if options.quick else changes
                medians = measured(
                    options, publisher, subscriber, kind, changes, min(each, changes)
                )
                print(line(name, changes, *medians), flush=True)
            count_syncs(options, publisher, subscriber)


if __name__ == "__main__":
    main()
