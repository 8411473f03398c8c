"""What goes wrong in a run."""

from __future__ import annotations


class Failed(Exception):
    """The connector did what it may not."""
