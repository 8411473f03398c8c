"""README's walkthrough with a server, run as a reader would run it."""

from __future__ import annotations

import os
import subprocess

from built import TOP

from .cluster import Cluster
from .errors import Failed
from .options import Options


def walk(options: Options) -> str:
    """Runs the walkthrough's commands over an empty server. Program and connector are found in
    PATH, as installed ones are."""
    folder = options.folder / "walk"
    folder.mkdir()
    for name, path in (("pgsub", options.program), ("pgsub-connect", options.connect)):
        (folder / name).symlink_to(path)
    cluster = Cluster(options.installed, options.folder)
    try:
        cluster.start()
        places = {
            "PGHOST": str(cluster.folder),
            "PGPORT": str(cluster.port),
            "PGUSER": cluster.user,
        }
        search = f"{folder}:{options.installed.bin}:{os.environ['PATH']}"
        done = subprocess.run(
            [TOP / "tools/check_documents", "--run", "server"],
            env={**os.environ, **places, "PATH": search},
            capture_output=True,
            text=True,
            check=False,
        )
    finally:
        cluster.remove()
    if done.returncode:
        raise Failed(f"{done.stdout}{done.stderr}".strip())
    return str(done.stdout.splitlines()[-1])
