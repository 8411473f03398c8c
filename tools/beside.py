"""A run of `rt ci`, and what is tried beside it as soon as it has proved what that stands on."""

import contextlib
import os
import re
import shutil
import subprocess
import sys
import threading
import time
from collections.abc import Callable, Collection, Iterator
from typing import Protocol

PROVED = re.compile(r"^rt: (\w+) (?:proved$|is kept: )")
COUNTS = re.compile(r"^(\d+) passed, (\d+) failed")
LOWEST = 19  # the priority of what runs beside, so that it takes what the proofs leave


class Library(Protocol):
    """A crate of which `rt ci` builds a library."""

    name: str
    folder: str


class Proofs:
    """A command that proves crates: which it has proved so far, and its counts once it has
    ended."""

    def __init__(self, say: Callable[..., None]) -> None:
        self.say, self.began = say, time.time()
        self.changed = threading.Condition()
        self.proved: set[str] = set()
        self.has_ended = False
        self.passed, self.failed = 0, 1

    def run(self, *command: str) -> None:
        """Runs it to its end, and prints what it prints."""
        last, status = "", 1
        try:
            with subprocess.Popen(
                command,
                stdin=subprocess.DEVNULL,
                stdout=subprocess.PIPE,
                text=True,
                errors="replace",
            ) as ran:
                assert ran.stdout
                for line in ran.stdout:
                    last = line.rstrip("\n")
                    self.say(last)
                    self.note(last)
            status = ran.returncode
        finally:
            self.end(last, status)

    def note(self, line: str) -> None:
        if found := PROVED.match(line):
            with self.changed:
                self.proved.add(found[1])
                self.changed.notify_all()

    def end(self, last: str, status: int) -> None:
        counts = COUNTS.match(last)
        with self.changed:
            if counts:
                self.passed, self.failed = int(counts[1]), int(counts[2])
            if status and not self.failed:
                self.failed = 1
            self.has_ended = True
            self.changed.notify_all()

    def have_proved(self, names: Collection[str]) -> bool:
        """Waits until all of these are proved, or nothing is to be proved any more, and tells
        which."""
        with self.changed:
            self.changed.wait_for(lambda: self.has_ended or self.proved.issuperset(names))
            return self.proved.issuperset(names)


class Beside:
    """Checks beside proofs: at most so many at once, and more when these have ended. Of those that
    wait the one of the greatest weight is next: what takes longest isn't to come last."""

    def __init__(self, proofs: Proofs, most: int, most_alone: int) -> None:
        self.proofs, self.most, self.most_alone, self.running = proofs, most, most_alone, 0
        self.waiting: list[int] = []

    def is_next(self, weight: int) -> bool:
        places = self.most_alone if self.proofs.has_ended else self.most
        return self.running < places and weight == max(self.waiting)

    @contextlib.contextmanager
    def turn(self, weight: int = 0) -> Iterator[None]:
        """Holds one of the places."""
        changed = self.proofs.changed
        with changed:
            self.waiting.append(weight)
            changed.wait_for(lambda: self.is_next(weight))
            self.waiting.remove(weight)
            self.running += 1
            # (there may be another place)
            changed.notify_all()
        try:
            yield
        finally:
            with changed:
                self.running -= 1
                changed.notify_all()


def links(libraries: Collection[Library], room: str, began: float) -> dict[str, str]:
    """Links built libraries into a folder of one's own. Returns where each one's folder is then.

    At its end `rt ci` puts back what was built before it, of other sources maybe: over that a
    mutant could be refused for a wrong reason, so one that is older than the run ends all. (A link
    has the time of its folder.)"""
    found = {}
    for it in libraries:
        made = f"{it.folder}/out/rlib"
        linked = shutil.copytree(
            f"{made}/{it.name}.rlib", f"{room}/{it.name}/{it.name}.rlib", copy_function=link
        )
        if os.stat(linked).st_mtime < began:
            sys.exit(
                f"mutants: `rt ci` ended before {it.name} was linked, and took it away: run this again"
            )
        found[made] = f"{room}/{it.name}"
    return found


def link(source: str, to: str) -> str:
    try:
        os.link(source, to)
    except OSError:
        shutil.copy2(source, to)
    return to


def moved(words: list[str], folders: dict[str, str]) -> list[str]:
    """The words of a check, over the libraries in these folders."""
    for made, at in folders.items():
        words = [
            it.replace(f"{made}/", f"{at}/")
            if f"{made}/" in it
            else at.join(it.rsplit(made, 1))
            if it.endswith(made)
            else it
            for it in words
        ]
    return words
