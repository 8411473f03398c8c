"""`STORE.repeats`: what the filter has noted of the commits that came last, by which it tells
whether those that a server sends again are the same.

What it has of a commit is of what was passed on. So it is of use as long as that is all of the
publications that are followed, as the checkpoint says: `repeats` is an LSN, and all that is noted
of commits that end above it is of whole ones. Sessions ask for nothing below it. It is 0 where
changes are left out, as of a table whose rows are added, or where the server has another history:
a filter that begins then notes anew. So it does where logical messages are asked for, or no more:
a commit that has nothing else comes only then.
"""

import os
import zlib

from pgsub_feed.errors import told_of
from pgsub_feed.files import remove

from ..server.session import Subscription
from .checkpoint import Checkpoint

SUFFIX = ".repeats"


class RepeatsFile:
    """It. `messages`: whether logical messages are asked for."""

    def __init__(
        self, store: str, checkpoint: Checkpoint, subscription: Subscription, messages: bool = False
    ) -> None:
        self.path = os.path.abspath(store + SUFFIX)
        self.checkpoint, self.subscription, self.messages = checkpoint, subscription, messages

    def checksum(self) -> int:
        """That of what is asked for: the names of the publications, and messages."""
        names = [*sorted(self.subscription.publications), *([""] if self.messages else [])]
        return zlib.crc32("\0".join(names).encode())

    def since(self) -> int:
        """The LSN from which on commits can be compared; 0 where none can be."""
        known = self.checkpoint.known
        return known.repeats if known.publications == self.checksum() else 0

    def begin_at(self, lsn: int) -> None:
        """Notes durably that all that is noted of commits that end above an LSN is of whole ones."""
        self.checkpoint.write(True, repeats=max(lsn, 1), publications=self.checksum())

    def prepare(self) -> None:
        """Removes what isn't of use, before a filter begins."""
        if not self.since():
            with told_of(self.path):
                remove(self.path)
