"""The parts of psycopg that this needs: its `pq`, errors, and connection strings.

They are imported where they are used first, while a filter opens its store; and without what
psycopg itself imports beside them, as cursors and types, which takes as long as all else of a
start. Whoever imports psycopg later gets all of it.
"""

import importlib
import sys
import threading
from importlib.util import find_spec, module_from_spec
from typing import TYPE_CHECKING, Any

if TYPE_CHECKING:
    from psycopg import conninfo as conninfo, errors as errors, pq as pq

PACKAGE = "psycopg"
LOADING = threading.RLock()


def load(name: str) -> Any:
    """A module, of psycopg's by itself."""
    with LOADING:
        is_whole = PACKAGE in sys.modules or not name.startswith(f"{PACKAGE}.")
        known = sys.modules.get(name)
        return known or (importlib.import_module(name) if is_whole else alone(name))


def alone(name: str) -> Any:
    """One that is imported without its package's own imports."""
    spec = find_spec(PACKAGE)
    if spec is None:
        raise ModuleNotFoundError(f"No module named {PACKAGE!r}", name=PACKAGE)
    sys.modules[PACKAGE] = module_from_spec(spec)
    try:
        return importlib.import_module(name)
    except (ImportError, AttributeError):
        # (a version that needs more of it)
        for it in [it for it in sys.modules if it.startswith(f"{PACKAGE}.")]:
            del sys.modules[it]
    finally:
        del sys.modules[PACKAGE]
    return importlib.import_module(name)


class Later:
    """A module that is imported once something of it is asked for."""

    def __init__(self, name: str) -> None:
        self.name = name

    def __getattr__(self, name: str) -> Any:
        return getattr(load(self.name), name)


if not TYPE_CHECKING:
    conninfo, errors, pq = (Later(f"{PACKAGE}.{it}") for it in ("conninfo", "errors", "pq"))
