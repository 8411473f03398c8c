"""What a follower is told, by the names of options."""

from __future__ import annotations

from collections.abc import Iterable
from typing import Any

from pgsub_connect.drift.remembered import Remembered
from pgsub_connect.follow.settings import FollowSettings
from pgsub_connect.server.session import Subscription
from pgsub_connect.status.progress import Progress
from pgsub_connect.store.checkpoint import Checkpoint
from pgsub_connect.stream.common import Common, Tolerance
from pgsub_connect.stream.memory_limit import BufferLimits


def followed(
    known: tuple[Checkpoint, Progress, Remembered],
    store: str,
    dsn: str = "",
    accept: Iterable[str] = (),
    strict: bool = False,
    max_buffered: int | None = None,
    max_frame: int = 0,
    **settings: Any,
) -> tuple[FollowSettings, Common]:
    """The first two arguments of a Follower."""
    subscription, tolerance = Subscription(dsn, publications=["pgsub"]), Tolerance(accept, strict)
    return (
        FollowSettings(store, limits=BufferLimits(max_buffered, max_frame), **settings),
        Common(subscription, tolerance, *known),
    )
