"""Standard input, output and error where whoever has started the process has closed them."""

import os
import sys

NAMES = {"stdin": "r", "stdout": "w", "stderr": "w"}


def open_closed() -> None:
    """Opens the null device in the place of each that is closed.

    Else a file of the store gets its number, to which libraries write what they tell, and the first
    line of the log is an error.
    """
    for number, (name, mode) in enumerate(NAMES.items()):
        try:
            os.fstat(number)
        except OSError:
            # (a new file has the lowest number that is free)
            os.set_inheritable(os.open(os.devnull, os.O_RDWR), True)
        if getattr(sys, name) is None:
            setattr(sys, name, open(number, mode, encoding="utf-8", closefd=False))
