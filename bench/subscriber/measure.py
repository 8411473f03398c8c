#!/usr/bin/env python3
"""Runs the program and the baseline in turn on sessions of some kinds, and prints a table of what
they take.

`bench/run subscriber` builds the baseline and calls this.

Seconds are of a processor (user and system), the quickest run of each; memory is the most that was
resident, in MB, of that run. The status is 1 where the two print other rows or another position.
"""

import argparse
import filecmp
import itertools
import os
import subprocess
import sys
from pathlib import Path

HERE = Path(__file__).resolve().parent
sys.path.insert(0, str(HERE.parents[1] / "tools"))
from built import add_program, check_program  # noqa: E402

# what the table says of a session, its arguments, and whether the program reads it as a recording
SESSIONS = (
    ("Inserts, 1 a transaction", ["inserts", "--each", "1"], False),
    ("Inserts, 100 a transaction", ["inserts", "--each", "100"], False),
    ("Inserts, 10,000 a transaction", ["inserts", "--each", "10000"], False),
    ("Inserts, 100 a transaction, as a recording", ["inserts", "--each", "100"], True),
    ("Updates at random, 100 a transaction", ["updates", "--each", "100"], False),
    (
        "1,000 open transactions in blocks of 5",
        ["interleaved", "--open", "1000", "--block", "5"],
        False,
    ),
    ("a rolled-back subtransaction of 4 in 5", ["rolled-back", "--block", "5"], False),
)


class Run:
    """What one run of a command took: seconds of a processor, and megabytes."""

    def __init__(self, command, output):
        most = output.with_suffix(".most")
        with output.open("wb") as out:
            child = subprocess.Popen(
                ["/usr/bin/time", "-o", most, "-f", "%M", *command], stdout=out
            )
            _, status, usage = os.wait4(child.pid, 0)
        child.returncode = os.waitstatus_to_exitcode(status)
        if child.returncode != 0:
            sys.exit(f"measure: {' '.join(map(str, command))} ended with status {child.returncode}")
        self.seconds = usage.ru_utime + usage.ru_stime
        self.megabytes = int(most.read_text()) / 1000


def made(session, file, changes, is_recording):
    kind, *sizes = session
    words = [kind, file, *sizes, "--changes", str(changes), *["--recording"] * is_recording]
    subprocess.run([sys.executable, HERE / "generate.py", *words], check=True)
    return file


def quickest(runs):
    return min(runs, key=lambda run: run.seconds)


def measured(options, session, changes, is_recording):
    """Runs both in turn, and returns the quickest run of each."""
    raw = made(session, options.folder / "session.raw", changes, False)
    given = made(session, options.folder / "session.pgx", changes, True) if is_recording else raw
    printed, expected = options.folder / "program.out", options.folder / "baseline.out"
    program_runs, baseline_runs = [], []
    for _ in range(options.turns):
        program_runs.append(
            Run([options.program, "apply", *["--raw"] * (not is_recording), given], printed)
        )
        baseline_runs.append(Run([options.baseline, raw], expected))
        if not filecmp.cmp(printed, expected, shallow=False):
            sys.exit(
                f"measure: the rows or the position differ: {' '.join(session)}, {changes} changes"
            )
    return quickest(program_runs), quickest(baseline_runs)


def line(name, changes, here, there):
    def told(run):
        return f"{run.seconds:.2f} s | {changes / run.seconds:,.0f} | {run.megabytes:.0f} MB"

    return f"| {name} | {changes:,} | {told(here)} | {told(there)} | {here.seconds / there.seconds:.1f} |"


def main():
    parser = argparse.ArgumentParser(
        description=__doc__, formatter_class=argparse.RawDescriptionHelpFormatter
    )
    parser.add_argument("baseline", type=Path, help="the built baseline")
    parser.add_argument("folder", type=Path, help="a folder for sessions and outputs")
    add_program(parser)
    parser.add_argument(
        "--changes",
        type=int,
        nargs="+",
        default=[50000, 200000],
        metavar="N",
        help="the sizes of the sessions in changes (default: 50000 200000)",
    )
    parser.add_argument(
        "--turns", type=int, default=3, metavar="N", help="how often each runs (default: 3)"
    )
    options = parser.parse_args()
    options.program = check_program(parser, options.program)
    print(
        "| Session | Changes | Here | changes/s | Memory | C | changes/s | Memory | Ratio of the times |"
    )
    print("|---|---|---|---|---|---|---|---|---|")
    for (name, session, is_recording), changes in itertools.product(SESSIONS, options.changes):
        print(line(name, changes, *measured(options, session, changes, is_recording)), flush=True)


if __name__ == "__main__":
    main()
