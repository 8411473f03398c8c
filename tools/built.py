"""The option `--program`: the program that a tool runs, and how. Nothing is built."""

import argparse
import os
from pathlib import Path

TOP = Path(__file__).resolve().parent.parent
PROGRAM = TOP / "crates/pgsub/out/pgsub"
# the C library takes memory in few large steps, which halves the time of a run: most of a short one
# is the store's first eight megabytes
LARGE_STEPS = {"GLIBC_TUNABLES": "glibc.malloc.hugetlb=1:glibc.malloc.top_pad=16777216"}


def add_program(parser: argparse.ArgumentParser) -> None:
    """Adds the option `--program PATH` to a tool."""
    told = f"the program to run (default: {PROGRAM.relative_to(TOP)})"
    parser.add_argument("--program", type=Path, default=PROGRAM, metavar="PATH", help=told)


def check_program(parser: argparse.ArgumentParser, path: Path) -> Path:
    """Returns the program's absolute path. Ends the tool with a usage error where it isn't
    there."""
    if not os.access(path, os.X_OK) or path.is_dir():
        parser.error(
            f"there is no program {path}: `./pgsub --build` makes it, or name another with --program"
        )
    return path.resolve()
