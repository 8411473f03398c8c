"""Tells how far a build of the program is: crate after crate, with the time that is left.

usage: building.py CHECKOUT LOG     reads what `rt run` prints, keeps it, and tells standard error
"""

import os
import re
import select
import sys
import time
from collections.abc import Iterable, Iterator
from pathlib import Path
from typing import BinaryIO

PROGRAM = "pgsub"
COST = re.compile(r"^\| `(\w+)` \| (\d+) \|", re.M)
DONE = re.compile(r"^crate (\w+): ")
PROVED = re.compile(r"^fn (\w+)::.*: proved$")
# before a crate, once all that it stands on is there; and how many of its functions were checked
BEGUN = re.compile(r"^rt: chose --jobs \d+ for (\w+)$")
SO_FAR = re.compile(r"^so far: (\d+) of (\d+) functions checked")
# Whoever waits hears something in this time, in seconds.
SILENCE = 60.0


def below(crates: str, name: str = PROGRAM) -> dict[str, set[str]]:
    """The crates that a program is built of, each with itself and those that it stands on."""
    lines = [line.partition(":") for line in crates.splitlines() if line.partition("#")[0].strip()]
    listed = {head.split()[0]: names.split() for head, _, names in lines}
    found: dict[str, set[str]] = {}

    def add(crate: str) -> set[str]:
        if crate not in found:
            found[crate] = {crate}.union(*(add(it) for it in listed[crate] if it in listed))
        return found[crate]

    add(name)
    return found


def costs_of(measured: str, crates: Iterable[str]) -> dict[str, float]:
    """What proving each crate costs, by the table of bench/results/gate.md.

    One that isn't in it costs what the middle one does.
    """
    known = {name: float(seconds) for name, seconds in COST.findall(measured)}
    middle = sorted(known.values())[len(known) // 2] if known else 1.0
    return {it: known.get(it, middle) for it in crates}


def minutes(seconds: float) -> str:
    return "less than a minute" if seconds < 60 else f"about {seconds / 60:.0f} min"


class Building:
    """What was built by now."""

    def __init__(self, crates: str, measured: str, now: float) -> None:
        self.below = below(crates)
        self.costs = costs_of(measured, self.below)
        self.done: set[str] = set()
        # (those that were there before were built in no time)
        self.spent = 0.0
        self.began, self.crate, self.functions, self.all = now, "", 0, 0

    def left(self, now: float) -> str:
        if len(self.done) == len(self.below):
            return "compiling it takes some minutes more"
        rest = sum(cost for name, cost in self.costs.items() if name not in self.done)
        if self.spent:
            return f"{minutes(rest * (now - self.began) / self.spent)} left"
        measured = f"{minutes(rest)} of a processor left, as it was measured"
        return measured if self.done else "time left isn't known yet"

    def note(self, line: str, now: float) -> str:
        """Notes a line of rt's. Returns what it tells."""
        if (found := BEGUN.match(line)) and found[1] in self.below:
            self.done |= self.below[found[1]] - {found[1]}
            self.crate, self.functions, self.all = found[1], 0, 0
        if found := SO_FAR.match(line):
            self.functions, self.all = int(found[1]), int(found[2])
        if (found := PROVED.match(line)) and found[1] in self.below:
            self.functions = self.functions + 1 if found[1] == self.crate else 1
            self.crate = found[1]
        if not (found := DONE.match(line)) or found[1] not in self.below:
            return ""
        self.done |= self.below[found[1]]
        self.spent += self.costs[found[1]]
        self.crate, self.functions, self.all = "", 0, 0
        return (
            f"{found[1]} is proved, {len(self.done)} of {len(self.below)} crates, {self.left(now)}"
        )

    def waiting(self, now: float) -> str:
        """What is told where nothing was for a while."""
        if len(self.done) == len(self.below):
            return f"all is proved, {self.left(now)}"
        count = f"{self.functions} of {self.all}" if self.all else f"{self.functions}"
        at = f"{count} functions of {self.crate} are proved" if self.crate else "proving"
        return f"{at}, {len(self.done)} of {len(self.below)} crates, {self.left(now)}"


def tell(text: str) -> None:
    print(f"{PROGRAM}: {text}", file=sys.stderr, flush=True)


def lines_read(file: int, log: BinaryIO) -> Iterator[list[str]]:
    """Gives the lines that a file has to read, and none where a while went by. All is kept."""
    rest = b""
    while True:
        if not select.select([file], [], [], SILENCE)[0]:
            yield []
            continue
        piece = os.read(file, 65536)
        if not piece:
            return
        log.write(piece)
        log.flush()
        *lines, rest = (rest + piece).split(b"\n")
        yield [it.decode(errors="replace") for it in lines]


def main(top: Path, log: Path) -> None:
    measured = top / "bench/results/gate.md"
    text = measured.read_text(encoding="utf-8") if measured.exists() else ""
    told = time.monotonic()
    building = Building((top / "crates.txt").read_text(encoding="utf-8"), text, told)
    with open(log, "wb") as kept:
        for lines in lines_read(0, kept):
            now = time.monotonic()
            said = [it for line in lines if (it := building.note(line, now))]
            if not said and now - told >= SILENCE:
                said = [building.waiting(now)]
            for it in said:
                tell(it)
                told = now


if __name__ == "__main__":
    main(Path(sys.argv[1]), Path(sys.argv[2]))
