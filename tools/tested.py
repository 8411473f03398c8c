"""Runs unit tests by pytest, and counts them.

A test that failed beside others has failed. Few of them are run again, alone, so that it is told
whether they fail then, too: a line `UNSTEADY ..` names one that passes five times in a row.
"""

from __future__ import annotations

import os
import subprocess
import sys
import tempfile
from collections.abc import Iterator
from dataclasses import dataclass
from pathlib import Path
from xml.etree import ElementTree

WRONG = ("failure", "error", "skipped")
# How many failures at most are looked at again, and how often each.
FEW, AGAIN = 3, 5
PYTEST = (sys.executable, "-m", "pytest", "-q", "-p", "no:cacheprovider")


@dataclass(frozen=True)
class Wrong:
    """What is wrong with a test: its module and class, its name, and whether it was left out."""

    where: str
    name: str
    kind: str
    text: str

    def __str__(self) -> str:
        return f"{self.where}.{self.name}: {self.kind}: {self.text}"

    def place(self, folder: Path) -> str:
        """How pytest names the test, "" where that can't be told."""
        parts = [it for it in self.where.split(".") if it]
        for at in range(len(parts), 0, -1):
            file = Path(*parts[:at]).with_suffix(".py")
            if (folder / file).is_file():
                return "::".join([str(file), *parts[at:], self.name])
        return ""


def found_wrong(case: ElementTree.Element) -> Iterator[Wrong]:
    """What is wrong with a test. What a test needs is what the gate needs: one that is skipped
    checks nothing."""
    for kind in WRONG:
        for it in case.findall(kind):
            text = (it.text or it.get("message") or "").strip()
            yield Wrong(case.get("classname", ""), case.get("name", ""), kind, text)


def results_in(report: Path) -> tuple[int, list[Wrong]]:
    """How many tests of a report passed, and what is wrong with the others."""
    cases = list(ElementTree.parse(report).iter("testcase"))
    wrong = [list(found_wrong(it)) for it in cases]
    return sum(not it for it in wrong), [found for it in wrong for found in it]


def passes_alone(folder: Path, wrong: Wrong, environment: dict[str, str]) -> bool:
    """Whether a test that failed passes each time where nothing runs beside it."""
    if wrong.kind == "skipped" or not (place := wrong.place(folder)):
        return False
    command = [*PYTEST, place]
    return all(
        subprocess.run(command, cwd=folder, env=environment, capture_output=True).returncode == 0
        for _ in range(AGAIN)
    )


def tell_unsteady(folder: Path, wrong: list[Wrong], environment: dict[str, str]) -> None:
    """Tells which of a few failures don't come again."""
    for it in wrong if len(wrong) <= FEW else []:
        if passes_alone(folder, it, environment):
            print(f"UNSTEADY {it.where}.{it.name}: failed, and passes {AGAIN} times alone")


def results_of(
    folder: Path, tests: str, beside: Path, jobs: int, words: tuple[str, ...] = ()
) -> tuple[int, list[str]]:
    """Runs the tests below a folder, so many at a time; their modules may import those of a folder
    beside it. Returns how many passed, and what is wrong with the others."""
    environment = {**os.environ, "PYTHONPATH": str(beside)}
    # (the children that tests start don't compile again what is kept beside the sources)
    environment.pop("PYTHONDONTWRITEBYTECODE", None)
    with tempfile.TemporaryDirectory() as room:
        report = Path(room, "report.xml")
        command = [*PYTEST, f"--junitxml={report}", *(["-n", str(jobs)] if jobs > 1 else [])]
        ran = subprocess.run(
            [*command, *words, tests], cwd=folder, env=environment, capture_output=True, text=True
        )
        if not report.is_file():
            return 0, [
                f"pytest ended with status {ran.returncode} (Debian: python3-pytest, python3-pytest-xdist)\n{ran.stdout}{ran.stderr}"
            ]
        passed, wrong = results_in(report)
    # (a worker that died, or tests that can't be read, may be in no report)
    if ran.returncode and not wrong:
        return passed, [f"pytest ended with status {ran.returncode}\n{ran.stdout}{ran.stderr}"]
    tell_unsteady(folder, wrong, environment)
    return passed, [str(it) for it in wrong]
