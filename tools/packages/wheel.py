"""The wheel of the package that reads feeds, for any Python."""

import os
import shutil
import subprocess
from pathlib import Path

# (the backend builds where it is called, by itself: nothing is fetched)
CODE = "import sys; from setuptools import build_meta; print(build_meta.build_wheel(sys.argv[1]))"


def make_wheel(package: Path, version: str, time: int, room: Path, out: Path) -> Path:
    """Makes it of a copy of the package, since setuptools writes beside the sources."""
    copy = room / package.name
    shutil.copytree(package, copy, ignore=shutil.ignore_patterns("__pycache__"))
    own = copy / "version.py"
    text = own.read_text()
    own.write_text(
        text.replace(
            text[text.index('VERSION = "') :].split("\n", 1)[0], f'VERSION = "{version}"', 1
        )
    )
    words = ["/usr/bin/python3", "-c", CODE, str(out.resolve())]
    environment = {**os.environ, "SOURCE_DATE_EPOCH": str(time)}
    ran = subprocess.run(
        words,
        cwd=copy,
        env=environment,
        stdout=subprocess.PIPE,
        stderr=subprocess.PIPE,
        text=True,
        check=False,
    )
    if ran.returncode:
        raise RuntimeError(f"{package}: no wheel comes of it: {ran.stderr.strip()}")
    return out / ran.stdout.split()[-1]
