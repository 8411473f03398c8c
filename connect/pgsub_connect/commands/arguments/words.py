"""What groups of options share: what reads a word, what is rejected, and exit statuses."""

import argparse
import dataclasses
import os
from collections.abc import Callable, Iterable
from typing import Any, TypeVar

from pgsub_feed.errors import UsageError
from pgsub_feed.options import file, lsn, no, option, size
from pgsub_feed.texts import is_utf_8

from ...store.placing import check_apart


# What leaves something out.
NO = "no"


def lsn_or_now(text: str) -> int | str:
    return text if text == "now" else lsn(text)


def size_or_no(text: str) -> int | str:
    return text if text == NO else size(text)


def mode_of(text: str) -> int:
    try:
        number = int(text, 8)
    except ValueError:
        number = -1
    if not 0o600 <= number <= 0o777 or number & 0o600 != 0o600:
        raise no(text, "mode that the owner can read and write, as 640")
    return number


def within(least: int, most: int) -> Callable[[str], int]:
    def number(text: str) -> int:
        if not text.isdigit() or not least <= int(text) <= most:
            raise no(text, f"number from {least} to {most}")
        return int(text)

    return number


def within_seconds(most: float, least: float = 0.1) -> Callable[[str], float]:
    def seconds(text: str) -> float:
        try:
            number = float(text)
        except ValueError:
            number = -1.0
        if not least <= number <= most:
            raise no(text, f"number of seconds from {least} to {most:.0f}")
        return number

    return seconds


seconds, any_seconds = within_seconds(86400.0), within_seconds(float(1 << 31), 0)


def check_texts(told: Iterable[tuple[str, str]], dsn: str = "") -> None:
    """Rejects what isn't UTF-8 of what the server or the program is told, which says so itself once
    all rows are copied. Each has the option that it is of."""
    for option, text in told:
        if not is_utf_8(text):
            raise UsageError(f"{option} {text}: that isn't UTF-8")
    if not is_utf_8(dsn):
        # (there may be a password in it)
        raise UsageError("the connection string isn't UTF-8")


def each(option: str, texts: Iterable[str]) -> list[tuple[str, str]]:
    """The words of an option that may be repeated."""
    return [(option, it) for it in texts]


# The words of options whose fields have other names.
NAMES = {"other": "with"}


def check_needs(parser: argparse.ArgumentParser, options: object, *pairs: tuple[str, str]) -> None:
    """Rejects an option that is given without the one that it needs."""
    for given, needed in pairs:
        if getattr(options, given) and not getattr(options, needed):
            parser.error(f"--{NAMES.get(given, given).replace('_', '-')} needs --{needed}")


def check_files(
    store: str, written: dict[str, str | None], read: dict[str, str | None] | None = None
) -> None:
    """Rejects to write what is the store's, or what another option names, by their options."""
    named = ([(option, it) for option, it in some.items() if it] for some in (written, read or {}))
    check_apart(store, *named)


def store_option(about: str, is_required: bool = True) -> Any:
    return file(about, "", required=is_required)


def mode_option(about: str) -> Any:
    return option(f"{about} (default: 600)", 0o600, value="OCTAL", type=mode_of)


def use_mode(mode: int) -> None:
    """Has all files get the mode that was asked for, whatever the caller's umask is."""
    os.umask(0o777 & ~mode)


@dataclasses.dataclass(frozen=True)
class StoreCopyOptions:
    """Which store is copied, into which file."""

    store: str = store_option(
        "the store, which may be in use: then its follower is asked for a copy"
    )
    into: str = file("the file to write; one of an earlier run is replaced", "", required=True)
    mode: int = mode_option("its mode")


Settled = TypeVar("Settled", bound=StoreCopyOptions)


def settled_store_copy(options: Settled) -> Settled:
    """Rejects a file that is the store's own, and has files get their mode."""
    check_files(options.store, {"--into": options.into})
    use_mode(options.mode)
    return options


ENDS = """\
exit status: 0 ended as asked; 1 `pgsub` rejected the stream, or was killed twice in one transaction; 2 usage error; 3 a file
can't be used; 4 the server rejected a command for good; 5 the store and the slot don't fit together, TLS is gone, or
the copy may be wrong; 6 a bug; 7 something is in the way only for now, such as a server that isn't there: start it again; 9 as 0, but changes
found no row in the copy
"""
COPIED = """\
exit status: 0 the file is whole; 2 usage error; 3 a file can't be used; 6 a bug; 7 something is in the way only for now, or a signal ended it
"""
ADDED = """\
exit status: 0 done, or left to the next start; 1 a table is left as it was; 2 to 7 as those of `follow`
"""
FED = """\
exit status: 0 ended as asked; 1 with --once: a table is set aside; 2 usage error; 3 a file can't be used; 5 the feed lacks commits after those that the file has; 6 a bug; 7
something is in the way only for now
"""
