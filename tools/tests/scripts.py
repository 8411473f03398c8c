"""The scripts of tools/ as modules."""

import importlib.machinery
import importlib.util
from typing import Any

from built import TOP


def loaded(name: str) -> Any:
    """The script of this name as a module."""
    loader = importlib.machinery.SourceFileLoader(f"{name}_script", str(TOP / "tools" / name))
    spec = importlib.util.spec_from_loader(loader.name, loader)
    assert spec
    module = importlib.util.module_from_spec(spec)
    loader.exec_module(module)
    return module
