"""The command line of tools/hostile/run."""

from __future__ import annotations

import argparse
import os
import queue
import shutil
import signal
import sys
import tempfile
import threading
import time
from collections.abc import Callable, Iterable
from pathlib import Path

import psycopg
from built import TOP, add_program, check_program
from live_server import installed
from live_server.cluster import Cluster
from live_server.errors import Unusable
from live_server.patience import Patience

from . import running, stripping
from .choosing import Told, everywhere, in_gate
from .errors import Failed
from .liar import Liar
from .lies import NONE
from .modes import MODES, Stage

CONNECT = TOP / "connect/pgsub-connect"
ROWS = (
    "CREATE TABLE stock (sku int PRIMARY KEY, note text)",
    "INSERT INTO stock SELECT it, 'note ' || it FROM generate_series(1, 1000) it",
)


class Workers:
    """Threads that run what is told, each with a database of its own."""

    def __init__(self, cluster: Cluster, words: argparse.Namespace, folder: Path) -> None:
        self.cluster, self.words, self.folder = cluster, words, folder
        self.lock, self.left = threading.Lock(), queue.Queue[Told]()
        self.passed = self.failed = 0
        # how many answers each mode gets where all are honest
        self.counts: dict[str, int] = {}

    def stage(self, number: int) -> Stage:
        name = f"shop{number}"
        self.cluster.run(f"CREATE DATABASE {name}", database="postgres")
        self.cluster.run(*ROWS, database=name)
        path, socket = self.folder / name, self.cluster.folder / f".s.PGSQL.{self.cluster.port}"
        (path / "liar").mkdir(parents=True)
        liar = Liar(socket, path / "liar")
        return Stage(
            self.words.connector.resolve(),
            self.words.program,
            socket,
            self.cluster.user,
            name,
            path / "run",
            liar,
        )

    def run(self, told: Iterable[Told], stages: list[Stage]) -> None:
        for it in told:
            self.left.put(it)
        threads = [threading.Thread(target=self.work, args=(it,), daemon=True) for it in stages]
        for thread in threads:
            thread.start()
        for thread in threads:
            thread.join()

    def work(self, stage: Stage) -> None:
        while True:
            try:
                told = self.left.get_nowait()
            except queue.Empty:
                return
            self.check(told.name(), lambda: self.tell(stage, told))

    def tell(self, stage: Stage, told: Told) -> str:
        said = running.run(stage, told.mode, told.lie, told.first)
        self.counts.setdefault(told.mode.name, stage.liar.count)
        return said

    def check(self, name: str, call: Callable[[], str]) -> None:
        """Runs something, and prints how it went."""
        began = time.monotonic()
        try:
            said, well = call(), True
        except Exception as error:  # noqa: BLE001
            said, well = f"{type(error).__name__}: {error}", False
        took = time.monotonic() - began
        with self.lock:
            self.passed, self.failed = self.passed + well, self.failed + (not well)
            how = "ok" if well else "FAILED"
            print(f"{how} {name}: {said} ({took:.1f} s)", flush=True)


def parser_of() -> argparse.ArgumentParser:
    from . import __doc__ as about

    parser = argparse.ArgumentParser(
        prog="run",
        description=f"{about}\nThe last line is `N passed, M failed`.",
        formatter_class=argparse.RawDescriptionHelpFormatter,
    )
    add_program(parser)
    add = parser.add_argument
    add(
        "--connector",
        type=Path,
        default=CONNECT,
        metavar="PATH",
        help=f"the connector (default: {CONNECT.relative_to(TOP)})",
    )
    add(
        "--server",
        type=int,
        metavar="N",
        help="the honest server's major version (default: the newest that is there)",
    )
    add(
        "--root",
        type=Path,
        metavar="FOLDER",
        help="the root folder in which it runs by chroot (default: none)",
    )
    add(
        "--user",
        default="postgres",
        help="whom it runs as where this runs as root (default: postgres)",
    )
    cores = len(os.sched_getaffinity(0))
    add(
        "--workers",
        type=int,
        default=cores,
        metavar="N",
        help="how many run at once (default: one for each processor)",
    )
    add(
        "--patience",
        type=float,
        default=1,
        metavar="N",
        help="limits of time are N times as long, on a machine that is busy",
    )
    which = parser.add_mutually_exclusive_group()
    which.add_argument(
        "--gate", action="store_true", help="each lie once, as the merge gate does (the default)"
    )
    which.add_argument(
        "--all",
        action="store_true",
        help="each lie in each mode, in the place of each answer: takes an hour and more",
    )
    which.add_argument(
        "--only",
        action="append",
        default=[],
        metavar="TEXT",
        help="those of --all with this in their name; may be repeated",
    )
    return parser


def chosen(words: argparse.Namespace, counts: dict[str, int]) -> list[Told]:
    if words.only:
        return [it for it in everywhere(counts) if any(text in it.name() for text in words.only)]
    return list(everywhere(counts) if words.all else in_gate(counts))


def run(words: argparse.Namespace, folder: Path) -> int:
    cluster = Cluster(installed.find(words.server, words.root, words.user), folder)
    try:
        cluster.start()
        workers = Workers(cluster, words, folder)
        stages = [workers.stage(it) for it in range(words.workers)]
        # (first without a lie, which tells how many answers there are)
        workers.run((Told(mode, NONE, 0) for mode in MODES), stages)
        workers.check("TLS that is taken away", lambda: stripping.run(stages[0]))
        if not workers.failed:
            workers.run(chosen(words, workers.counts), stages)
    finally:
        cluster.remove()
    print(f"{workers.passed} passed, {workers.failed} failed")
    return int(workers.failed > 0 or not workers.passed)


def main(arguments: list[str]) -> int:
    parser = parser_of()
    words = parser.parse_args(arguments)
    words.program = check_program(parser, words.program)
    signal.signal(signal.SIGTERM, lambda *_: sys.exit(1))
    Patience.factor = words.patience
    for name in [it for it in os.environ if it.startswith("PG")]:
        del os.environ[name]
    folder = Path(tempfile.mkdtemp(prefix="hostile-"))
    folder.chmod(0o711)
    try:
        return run(words, folder)
    except (Unusable, Failed, psycopg.Error) as error:
        print(f"FAILED {error}\n0 passed, 1 failed")
        return 1
    finally:
        shutil.rmtree(folder, ignore_errors=True)
