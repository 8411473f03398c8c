"""What the commands that follow a real server have in common: where it is found, and how they
begin and end."""

from __future__ import annotations

import argparse
import os
import shutil
import signal
import sys
import tempfile
from collections.abc import Callable
from pathlib import Path
from typing import TYPE_CHECKING

from built import TOP, add_program, check_program

from . import installed
from .options import Options
from .patience import Patience

if TYPE_CHECKING:
    from .checks import Checks

CONNECT = TOP / "connect/pgsub-connect"


def add_where(parser: argparse.ArgumentParser) -> None:
    """Adds the options on programs, server and files."""
    add_program(parser)
    add = parser.add_argument
    add(
        "--connector",
        type=Path,
        default=CONNECT,
        metavar="PATH",
        help=f"the connector (default: {CONNECT.relative_to(TOP)})",
    )
    add(
        "--server",
        type=int,
        metavar="N",
        help="the server's major version (default: the newest that is there)",
    )
    add(
        "--root",
        type=Path,
        metavar="FOLDER",
        help="the root folder in which the server runs by chroot (default: none)",
    )
    add(
        "--user",
        default="postgres",
        help="whom the server runs as where this runs as root (default: postgres)",
    )
    add("--folder", type=Path, help="where the files are (default: a new folder under TMPDIR)")
    add("--keep-folder", action="store_true", help="keep the folder")
    add(
        "--patience",
        type=float,
        default=1,
        metavar="N",
        help="limits of time are N times as long, on a machine that is busy",
    )
    add("--seed", default="1", help="the seed of the load and of the moments (default: 1)")


def options_of(parser: argparse.ArgumentParser, words: argparse.Namespace) -> Options:
    """What was found by these options, with a new folder for files."""
    if not os.access(words.connector, os.X_OK) or words.connector.is_dir():
        parser.error(f"there is no connector {words.connector}")
    Patience.factor = words.patience
    found = installed.find(words.server, words.root, words.user)
    folder = Path(tempfile.mkdtemp(prefix=f"{parser.prog}-", dir=words.folder))
    # (the server's own folder lies in there, and is its account's alone)
    folder.chmod(0o711)
    return Options(
        words.program,
        words.connector.resolve(),
        found,
        folder,
        words.seed,
        keep=words.keep_folder,
    )


def run(
    parser: argparse.ArgumentParser,
    words: argparse.Namespace,
    call: Callable[[Options, Checks], None],
) -> int:
    """Runs what a command does, with the server that its words name. The exit status."""
    words.program = check_program(parser, words.program)
    try:
        from .checks import Checks
        from .errors import Unusable
    except ModuleNotFoundError as error:
        print(f"{parser.prog}: {error.name} is needed: apt-get install python3-psycopg")
        print("0 passed, 1 failed")
        return 1
    # (so that a server doesn't outlive this)
    signal.signal(signal.SIGTERM, lambda *_: sys.exit(1))
    for name in [it for it in os.environ if it.startswith("PG")]:
        del os.environ[name]
    checks = Checks()
    try:
        options = options_of(parser, words)
    except Unusable as error:
        checks.fail("a server", str(error))
        return checks.tell()
    call(options, checks)
    if not options.keep and not checks.failed:
        shutil.rmtree(options.folder, ignore_errors=True)
    return checks.tell()
