"""How long is waited."""

from __future__ import annotations


class Patience:
    """By how much limits of time are longer than on a machine that has nothing else to do."""

    factor = 1.0
