"""How a program ends: by signals that ask for it, and by errors that are told."""

import contextlib
import errno
import gc
import os
import signal
from collections.abc import Callable, Iterator

from . import log
from .errors import BUG, FILE, PASSING, Failure, Stopped
from .interruption import Check, interrupt

# What may be otherwise at a later start.
PASSING_ERRORS = (
    *(errno.ENOSPC, errno.EDQUOT, errno.ENOMEM, errno.EAGAIN, errno.EMFILE, errno.ENFILE),
    *(errno.ESTALE, errno.ETIMEDOUT, errno.EHOSTDOWN),
)

# How many objects more are there until Python looks for cycles of garbage, and how often it looks
# at those of its youngest generation, and of the next, until at all.
COLLECTED = 100_000, 20, 20


@contextlib.contextmanager
def collected_rarely() -> Iterator[None]:
    """Has Python look for cycles of garbage less often while many rows are read at once: they are
    none, and it looks at each again and again."""
    before = gc.get_threshold()
    gc.set_threshold(*COLLECTED)
    try:
        yield
    finally:
        gc.set_threshold(*before)


class Worker:
    """What ends when it is asked to."""

    stop_asked = False

    def ask_to_stop(self) -> None:
        self.stop_asked = True

    def check_stop(self) -> None:
        if self.stop_asked:
            raise Stopped


def stop_by_signals(*workers: Worker) -> None:
    """Lets a first signal ask for the end, and a second one end at once."""

    def ask(number: int, _: object) -> None:
        for worker in workers:
            if worker.stop_asked:
                os._exit(128 + number)
            worker.ask_to_stop()
        interrupt()

    for number in (signal.SIGINT, signal.SIGTERM):
        signal.signal(number, ask)


def check_signals() -> Check:
    """What raises Stopped once a signal has asked for the end."""
    start = Worker()
    stop_by_signals(start)
    return start.check_stop


def guarded(call: Callable[[], int]) -> int:
    """The exit status of what is called, or of the error that it raises, which is told."""
    try:
        return call()
    except Stopped:
        return 0
    except Failure as error:
        log.error(error.told())
        return error.exit_status()
    except OSError as error:
        log.error(f"{error.filename or 'a file'}: {error.strerror or error}")
        return PASSING if error.errno in PASSING_ERRORS else FILE
    except Exception:  # noqa: BLE001
        # (a start takes as long as what it imports)
        import traceback

        log.error(f"a bug: {traceback.format_exc().rstrip()}")
        return BUG
    finally:
        log.erase()
