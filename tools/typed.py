"""Types, by mypy --strict."""

import os
import shutil
import subprocess
from collections.abc import Iterable
from pathlib import Path


def types_are_right(folder: Path, names: Iterable[str], beside: Path | None = None) -> bool:
    """Whether mypy finds nothing in these packages, modules and scripts of a folder, which may
    import those of one beside it."""
    mypy = shutil.which("mypy", path="/usr/bin") or shutil.which("mypy")
    if mypy is None:
        print(
            "mypy isn't installed (Debian: apt-get install mypy); --without-mypy goes on without it"
        )
        return False
    command = [mypy, "--strict", "--scripts-are-modules", *names]
    return (
        subprocess.run(
            command, cwd=folder, env={**os.environ, "MYPYPATH": str(beside or "")}, check=False
        ).returncode
        == 0
    )
