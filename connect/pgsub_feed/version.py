"""The version, and which build this is.

What is installed has a file `BUILD` in this package and another one beside the program: a word and
its value on each line, `version`, `commit`, `kit`, and `program`, the SHA-256 sum of the program. A
checkout has none, nor has a wheel.
"""

import os

from . import log

VERSION = "0.1.0"
NAME = "BUILD"
HERE = os.path.dirname(os.path.abspath(__file__))
TOP = os.path.dirname(os.path.dirname(HERE))


def read_build(folder: str) -> dict[str, str]:
    """The words of a folder's file; none where there is no such file."""
    try:
        with open(os.path.join(folder, NAME), encoding="utf-8") as file:
            lines = file.read().splitlines()
    except (OSError, UnicodeDecodeError):
        return {}
    return {word: value for word, _, value in (line.partition(" ") for line in lines) if value}


# (read once: what is installed may be replaced while this runs)
OWN = read_build(HERE)


def version() -> str:
    """The version, and of which build this is, or which commit where it is a checkout."""
    if OWN:
        return f"{log.PROGRAM} {OWN.get('version')} (commit {OWN.get('commit')}, {OWN.get('kit')})"
    if not os.path.isdir(os.path.join(TOP, "crates")):
        return f"{log.PROGRAM} {VERSION}"
    # (imported here, since most commands tell no version)
    import subprocess

    try:
        done = subprocess.run(
            ["git", "-C", TOP, "describe", "--always", "--dirty"],
            capture_output=True,
            check=True,
            timeout=5,
        )
        return f"{log.PROGRAM} {VERSION} ({done.stdout.decode().strip()})"
    except (OSError, subprocess.SubprocessError):
        return f"{log.PROGRAM} {VERSION}"
