"""The form of Python, by black."""

import shutil
import subprocess
from collections.abc import Iterable
from pathlib import Path

TOP = Path(__file__).resolve().parent.parent
CONFIGURATION = TOP / "connect/pyproject.toml"


def is_formed(folder: Path, names: Iterable[str]) -> bool:
    """Whether black would change nothing of these packages and files of a folder."""
    black = shutil.which("black", path="/usr/bin") or shutil.which("black")
    if black is None:
        print("black isn't installed (Debian: apt-get install black)")
        return False
    command = [black, "--check", "--quiet", "--diff", f"--config={CONFIGURATION}", *names]
    ran = subprocess.run(command, cwd=folder, capture_output=True, text=True, check=False)
    print(ran.stdout + ran.stderr, end="")
    return ran.returncode == 0
