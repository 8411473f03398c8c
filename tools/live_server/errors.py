"""Why a run fails."""

from __future__ import annotations


class Failed(Exception):
    """Something is not as it has to be."""


class Unusable(Exception):
    """What is needed isn't there: no server, no account, no right."""
