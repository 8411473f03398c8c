"""The full check of a store's file: the program reads all its rows."""

import contextlib
import os
import subprocess

from pgsub_feed.errors import FileError
from pgsub_feed.files import meant
from pgsub_feed.interruption import Check

from ..judged import Result, error, ok, warning
from .at_rest import locked_checkpoint

# How often it is looked for the end, in seconds.
LOOK = 0.2
# What the last line on standard error may be in a result.
LONGEST = 1000


def judge_rows(program: str, store: str, check: Check) -> Result:
    """Whether a store is sound: each row, its entry in the index, and each page."""
    if (file := locked_checkpoint(store)) is None:
        return warning("store", f"{store} is followed now, so its rows weren't read")
    with contextlib.ExitStack() as stack:
        stack.callback(os.close, file)
        status, said = dumped(program, store, check)
    if status:
        return error("store", f"{store} isn't sound: {said or f'status {status}'}")
    return ok("store", f"all rows of {store} are sound")


def dumped(program: str, store: str, check: Check) -> tuple[int, str]:
    """Has the program read all rows. Returns its status, and the last line that it said."""
    words, null = [program, "dump", "--store", meant(store)], subprocess.DEVNULL
    try:
        child = subprocess.Popen(
            words, stdin=null, stdout=null, stderr=subprocess.PIPE, start_new_session=True
        )
    except OSError as failed:
        raise FileError(f"{program}: {failed.strerror}") from None
    try:
        while True:
            check()
            with contextlib.suppress(subprocess.TimeoutExpired):
                _, said = child.communicate(timeout=LOOK)
                break
    except BaseException:
        child.kill()
        child.communicate()
        raise
    lines = said[-LONGEST:].decode(errors="replace").splitlines()
    return child.returncode, lines[-1] if lines else ""
