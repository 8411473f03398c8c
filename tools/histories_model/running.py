"""Runs cases, several at once, and prints those that differ."""

import multiprocessing
import os
import shutil
import signal
import tempfile
import time
import traceback
from queue import Empty
from typing import NamedTuple

from built import add_program, check_program

from . import cases, program


def run_case(name, call, runner, keep):
    """Runs one case in an empty folder; what differs, or None."""
    for it in os.scandir(runner.folder):
        if it.is_dir():
            shutil.rmtree(it.path)
        else:
            os.unlink(it.path)
    try:
        call(runner)
        return None
    except cases.Difference as difference:
        told = str(difference)
    except Exception:
        told = "the tool failed\n" + traceback.format_exc()
    kept = os.path.join(keep, name.replace(" ", "_").replace("/", "_"))
    shutil.copytree(runner.folder, kept, dirs_exist_ok=True)
    with open(os.path.join(kept, "difference"), "w") as file:
        file.write(told + "\n")
    return f"{name}: {told}\n   files: {kept}"


def work(made, options, folder, worker, queue):
    """Runs a worker's share of the cases; the queue takes what differs or None of each, and at the
    end the worker's number."""
    signal.signal(signal.SIGTERM, signal.SIG_DFL)
    signal.signal(signal.SIGINT, signal.SIG_IGN)
    program.limit_memory()
    try:
        runner = program.Program(options.program, tempfile.mkdtemp(dir=folder))
        for number, (name, call) in enumerate(made()):
            if number % options.jobs == worker:
                queue.put(run_case(name, call, runner, options.keep))
    except Exception:
        queue.put("the tool failed\n" + traceback.format_exc())
    queue.put(worker)


class Ended(NamedTuple):
    """How many cases were run, how many of them differ, and whether an interrupt ended it."""

    done: int
    differ: int
    interrupted: bool

    def tell(self, seconds):
        """What is printed last."""
        return f"{self.done} cases, {self.differ} differ, {'interrupted after ' if self.interrupted else ''}{seconds:.0f} s"

    def status(self):
        """The exit status. It isn't 0 where cases are left that may differ, or there was none."""
        return int(self.differ > 0 or self.interrupted or not self.done)


def run_all(made, options, folder):
    """Runs all cases that `made` gives, and prints those that differ."""
    began = time.monotonic()
    signal.signal(signal.SIGTERM, signal.default_int_handler)
    queue = multiprocessing.Queue()
    workers = [
        multiprocessing.Process(target=work, args=(made, options, folder, worker, queue))
        for worker in range(options.jobs)
    ]
    done = differ = 0
    running = len(workers)
    interrupted = False
    try:
        for worker in workers:
            worker.start()
        while running and differ < options.stop_after:
            # (what one has told that ended before this is there)
            alive = any(worker.is_alive() for worker in workers)
            try:
                told = queue.get(timeout=10)
            except Empty:
                if alive:
                    continue
                told, running = "the tool failed: a worker was killed", 0
            if isinstance(told, int):
                running -= 1
                continue
            done += 1
            if told:
                differ += 1
                print(told, flush=True)
            if done % 5000 == 0:
                print(
                    f"{done} cases, {differ} differ, {time.monotonic() - began:.0f} s", flush=True
                )
    except KeyboardInterrupt:
        interrupted = True
    for worker in workers:
        if worker.pid is None:
            continue
        if running:
            worker.terminate()
        worker.join()
    return Ended(done, differ, interrupted)


def add_options(parser):
    """The options that all tools have which run cases."""
    add_program(parser)
    parser.add_argument(
        "--jobs", type=int, default=1, metavar="N", help="how many run at once (default: 1)"
    )
    parser.add_argument(
        "--keep",
        default="differences",
        metavar="FOLDER",
        help="where the files of cases that differ go (default: differences)",
    )
    parser.add_argument(
        "--stop-after",
        type=int,
        default=10,
        metavar="N",
        help="stop after N differences (default: 10)",
    )


def checked_options(parser, options, runs_program=True):
    if runs_program:
        options.program = str(check_program(parser, options.program))
    options.keep = os.path.abspath(options.keep)
    return options


def work_folder():
    """A folder for the files of the cases, in memory where there is one."""
    return tempfile.TemporaryDirectory(
        prefix="histories-", dir="/dev/shm" if os.path.isdir("/dev/shm") else None
    )
