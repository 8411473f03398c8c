"""Whether a program is of the same build as this connector: a checkout's takes any."""

import os
import shutil

from pgsub_feed import version as own
from pgsub_feed.errors import Passing


def check_program(program: str) -> None:
    """Rejects a program of another build. After an upgrade a new start mends that."""
    if not own.OWN:
        return
    path = os.path.realpath(shutil.which(program) or program)
    other = own.read_build(os.path.dirname(path))
    if other != own.OWN:
        text = f"{program} is of {text_of(other)}, and this connector of {text_of(own.OWN)}: install both from one package, and start again"
        raise Passing(text)


def text_of(build: dict[str, str]) -> str:
    known = f"the build {build.get('version', '?')} ({build.get('program', '?')[:12]})"
    return known if build else "an unknown build"
