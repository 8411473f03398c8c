"""The options of a command line."""

from __future__ import annotations

from collections.abc import Sequence
from typing import Any

from pgsub_connect.cli import arguments, command_of


def options_of(words: Sequence[str]) -> Any:
    """As they are read."""
    return arguments(words)[1]


def settled(words: Sequence[str]) -> Any:
    """With what they leave out, and once what is wrong of them was rejected."""
    name, options = arguments(words)
    settle = getattr(command_of(name), "settled", None)
    return settle(options) if settle else options
