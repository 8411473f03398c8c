"""The lines on standard error, `2026-11-25T09:00:00Z pgsub-connect: warning: text`, with one of
the levels info, warning and error; and how far long work is, drawn on a terminal, else a line each
half minute. A terminal gets colours, unless NO_COLOR is set."""

import contextlib
import os
import sys
import threading
import time
from typing import TextIO

from .texts import duration_text

PROGRAM = "pgsub-connect"
# The colours of words, as a terminal takes them; and what takes a line away.
COLOURS = {"warning": "33", "error": "31", "ok": "32", "bold": "1"}
ERASED = "\r\x1b[K"
# Set while a line is drawn that the next one replaces.
DRAWN = threading.Event()


def is_terminal(file: TextIO | None = None) -> bool:
    """Whether a file, standard error where none is given, is a terminal on which can be drawn."""
    with contextlib.suppress(OSError, ValueError):
        return (file or sys.stderr).isatty() and os.environ.get("TERM") != "dumb"
    return False


def coloured(text: str, colour: str, file: TextIO | None = None) -> str:
    """A text with a colour, where there is one of that name and the file shows it."""
    if colour not in COLOURS or os.environ.get("NO_COLOR") or not is_terminal(file):
        return text
    return f"\x1b[{COLOURS[colour]}m{text}\x1b[0m"


def name_program(name: str) -> None:
    """Has the lines of this process begin with this name."""
    global PROGRAM
    PROGRAM = name


def shown(character: str) -> str:
    """A character that a terminal only shows."""
    if character.isprintable():
        return character
    number = ord(character)
    return " " if character == "\t" else f"\\x{number:02x}" if number < 256 else f"\\u{number:04x}"


def escaped(text: str) -> str:
    """A text of another process or of the server on one line, without control characters."""
    return text if text.isprintable() else "".join(map(shown, text))


def line(level: str, text: str) -> None:
    """Writes a line. A longer text's lines have heads, so that none looks like this program's."""
    now = time.strftime("%Y-%m-%dT%H:%M:%SZ", time.gmtime())
    first, *more = text.split("\n")
    head = f"{now} {PROGRAM}: {coloured(level, level)}:"
    erase()
    put("".join([f"{head} {escaped(first)}\n", *(f"{head}   {escaped(it)}\n" for it in more)]))


def put(text: str) -> None:
    # (where nobody reads it any more, following goes on)
    with contextlib.suppress(OSError, ValueError):
        sys.stderr.write(text)
        sys.stderr.flush()


def draw(text: str) -> None:
    """Draws a line on the terminal, as much of it as there is room for, until another one comes."""
    room = 0
    with contextlib.suppress(OSError, ValueError):
        room = os.get_terminal_size(sys.stderr.fileno()).columns
    DRAWN.set()
    put(ERASED + escaped(text)[: (room or 80) - 1])


def erase() -> None:
    """Takes away what is drawn."""
    if DRAWN.is_set():
        DRAWN.clear()
        put(ERASED)


def info(text: str) -> None:
    line("info", text)


def warning(text: str) -> None:
    line("warning", text)


def error(text: str) -> None:
    line("error", text)


class Once(set[object]):
    """Of what it was warned, once each."""

    def warning(self, what: object, text: str) -> None:
        if what not in self:
            self.add(what)
            warning(text)


# How often it is drawn at most, and how often a line is written elsewhere, in seconds.
EACH_LINE, WRITTEN = 0.2, 30.0


class Meter:
    """Of work that begins at the first `note`. `about`: what it is; `unit`: what counts."""

    def __init__(self, about: str, unit: str = "rows") -> None:
        self.about, self.unit = about, unit
        # when the work began and how much was done then; how much is done, and when that was shown
        self.began, self.first, self.done, self.shown = 0.0, 0, -1, 0.0

    def note(self, done: int, total: int | None = None, about: str = "") -> None:
        """So much is done, of so much in all if known. `about`: which part it is at."""
        now, is_drawn = time.monotonic(), is_terminal()
        # (what is lost begins anew)
        if not 0 <= self.done <= done:
            self.began, self.first, self.shown = now, done, now
        self.done = done
        if now - self.shown < (EACH_LINE if is_drawn else WRITTEN):
            return
        self.shown = now
        text = f"{self.about}{' ' if about else ''}{about}: {self.text(done, total)}"
        if is_drawn:
            draw(text)
        else:
            info(text)

    def text(self, done: int, total: int | None) -> str:
        """How much is done, how fast, and how long the rest takes by that."""
        rate = (done - self.first) / max(time.monotonic() - self.began, 0.1)
        return progress_text(done, total, rate, self.unit)


def progress_text(done: int, total: int | None, rate: float, unit: str = "rows") -> str:
    """So much is done, by so much a second. A total may be an estimate, and too low."""
    if total is None or total < done:
        return f"{done} {unit}, {rate:.0f} a second"
    left = f", {duration_text((total - done) / rate)} left" if rate > 0 else ""
    return f"{done} of {total} {unit}, {rate:.0f} a second{left}"
