"""Runs the program under limits of time and memory."""

import os
import resource
import shutil
import signal
from pathlib import Path

import feed_folder
from built import LARGE_STEPS
from stores import sound

MEMORY = 1 << 30
# of processor time, in which a shared machine counts what others take: for any input, and for each
# megabyte of it
SECONDS = 6.0
SECONDS_MEGABYTE = 1.0
PATIENCE = 300.0
LOG = "-wal"
# what runs a command within so many KiB of address space
LIMITED = ("/bin/sh", "-c", 'ulimit -v "$0" && exec "$@"')


class TimedOut(Exception):
    """The program didn't end."""


def limit_memory():
    """Limits the memory of this process, and so of each program that it starts."""
    resource.setrlimit(resource.RLIMIT_AS, (MEMORY, MEMORY))
    signal.signal(signal.SIGALRM, ring)


def ring(_signal, _frame):
    raise TimedOut


class Program:
    """A program and the folder in which it runs."""

    def __init__(self, path, folder):
        self.path, self.folder = path, folder
        self.out, self.err = self.path_of("out"), self.path_of("err")
        self.environment = {**os.environ, **LARGE_STEPS}

    def path_of(self, name):
        return os.path.join(self.folder, name)

    def file(self, name, content):
        path = self.path_of(name)
        with open(path, "wb") as file:
            file.write(content)
        return path

    def copied_alone(self, store):
        """A copy of a store's file without its log, which a run that has ended has put into the
        file."""
        alone = self.path_of("alone.db")
        if os.path.exists(store):
            shutil.copyfile(store, alone)
        return alone

    def store_findings(self, store, wanted):
        """What SQLite finds wrong with a store's file, after a run that has ended, or other than is
        wanted."""
        return sound.findings(Path(store), wanted)

    def saved(self, store):
        """The files of a store after a run that has ended, by what follows its name."""
        return {
            suffix: Path(store + suffix).read_bytes()
            for suffix in ("", LOG)
            if os.path.exists(store + suffix)
        }

    def put_back(self, store, saved):
        """Gives a store the files that it had."""
        for suffix in ("", LOG):
            Path(store + suffix).unlink(missing_ok=True)
        for suffix, content in saved.items():
            Path(store + suffix).write_bytes(content)

    def put_beside(self, feed, name, content):
        """Gives a file of a feed's folder these bytes."""
        os.makedirs(feed, feed_folder.FOLDER_MODE, exist_ok=True)
        Path(feed, name).write_bytes(content)

    def feed_findings(self, feed, wanted):
        """What a feed's folder has after a run other than is wanted."""
        return feed_folder.findings(Path(feed), wanted)

    def run(self, *words, given="/dev/null", memory=None):
        """Runs it, within so much memory if that is given: the status, standard output and standard
        error.

        A negative status is that of a signal.
        """
        create = os.O_WRONLY | os.O_CREAT | os.O_TRUNC
        actions = [
            (os.POSIX_SPAWN_OPEN, 0, given, os.O_RDONLY, 0),
            (os.POSIX_SPAWN_OPEN, 1, self.out, create, 0o600),
            (os.POSIX_SPAWN_OPEN, 2, self.err, create, 0o600),
        ]
        command, environment = [self.path, *words], self.environment
        if memory is not None:
            # (large steps would be a large part of it)
            command, environment = [*LIMITED, str(memory // 1024), *command], os.environ
        pid = os.posix_spawn(command[0], command, environment, file_actions=actions)
        signal.setitimer(signal.ITIMER_REAL, PATIENCE)
        try:
            _, ended, used = os.wait4(pid, 0)
            signal.setitimer(signal.ITIMER_REAL, 0)
        except TimedOut:
            os.kill(pid, signal.SIGKILL)
            os.waitpid(pid, 0)
            return "no end", b"", b""
        status = os.waitstatus_to_exitcode(ended)
        taken = used.ru_utime + used.ru_stime
        size = os.path.getsize(given) + (
            os.path.getsize(words[-1]) if os.path.exists(words[-1]) else 0
        )
        if taken > SECONDS + SECONDS_MEGABYTE * size / 1e6:
            status = f"{status} after {taken:.1f} s"
        with open(self.out, "rb") as out, open(self.err, "rb") as err:
            return status, out.read(), err.read()
