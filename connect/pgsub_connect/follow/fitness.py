"""What is looked at before a session: whether this is the server whose changes the store has, and
whether its history and its slot fit the store.

What doesn't fit raises: a ServerError where it may pass, as with a standby that is behind, and else
Unfit. A history or a slot that doesn't fit is a finding, too. The position is everywhere that of
the store: the end of its last commit.
"""

import dataclasses

from pgsub_feed import log
from pgsub_feed.errors import Unfit
from pgsub_feed.interruption import Check
from pgsub_feed.texts import lsn_text

from ..errors import ServerError
from ..server.connection import Connection
from ..server.publications import has_publication
from ..server.publication_setup import refusal
from ..server.session import Server, is_same_database, left_at, slot_position
from ..store.checkpoint import check_gap
from ..store.checkpoint_lines import FOLLOWING, NEW
from ..stream.common import note_server
from .drift_watch import Watch


class Fitting:
    """Compares a store's checkpoint with a server, and notes whose changes the store has."""

    def __init__(self, no_copy: bool, watch: Watch) -> None:
        self.no_copy, self.watch, self.checkpoint = no_copy, watch, watch.checkpoint
        self.subscription, self.tolerance = watch.subscription, watch.tolerance

    def check_server(self, server: Server, confirmed: int, position: int) -> None:
        """Checks that this is the server whose changes the store has, and that it has all of them.
        On another timeline it needn't be beyond what a keepalive alone has confirmed: a standby
        that was promoted never had what isn't published behind its last commit."""
        known, remembered = self.checkpoint.known, self.watch.remembered
        slot = self.subscription.slot
        here = server.database, server.database_oid
        is_same = is_same_database(known.database, remembered.database, *here)
        if known.system and ((server.system, slot) != (known.system, known.slot) or not is_same):
            if (server.system, slot) == (known.system, known.slot):
                other = server.database if server.database != known.database else "a later one"
                text = f"the store follows the database {known.database}, and this is {other}"
                raise Unfit(f"{text}: name that one by --dsn, or another store")
            text = (
                f"the store follows slot {known.slot} of database {known.database} of the server {known.system}, "
                f"and not slot {slot} of {server.database} of {server.system}: name its server by --dsn, or another store"
            )
            if is_same and slot == known.slot:
                store = self.checkpoint.path.removesuffix(".connector")
                text += f". If pg_upgrade made this server of that one, copy anew: `pgsub-connect drop --store {store}` tells how"
            raise Unfit(text)
        least = confirmed if known.timeline in (0, server.timeline) else position
        if server.log_end >= least:
            return
        ends = f"log ends at {lsn_text(server.log_end)}, before the store at {lsn_text(least)}"
        if server.is_standby:
            raise ServerError(f"the server is a standby whose {ends}")
        text = f"the server's {ends}: it lost changes, as a standby that was promoted before it had them, or a backup that was put back"
        # (once its log is beyond that, nothing else may show it)
        self.watch.note("history", position, text)
        raise Unfit(
            f"{text}. Copy anew (`pgsub-connect drop`, then a start with --create); or start again once its log is beyond that,"
            " with --accept history, and `pgsub-connect verify --repair`"
        )

    def find_slot(self, connection: Connection, server: Server) -> int:
        """The LSN from which the slot sends."""
        slot_at = slot_position(connection, self.subscription.slot)
        if slot_at is not None:
            return slot_at
        if server.is_standby:
            raise ServerError(f"the server is a standby without the slot {self.subscription.slot}")
        text = f"the server has no slot {self.subscription.slot}"
        if self.checkpoint.known.phase == NEW:
            raise Unfit(f"{text}: --create makes it, --slot names another one")
        store = self.checkpoint.path.removesuffix(".connector")
        cure = f"`pgsub-connect drop --store {store}`, then a start with --create, copies anew"
        raise Unfit(
            f"{text}: it was dropped, or never was on this one, as where it was promoted, rewound or restored. What has changed since may be gone: {cure}"
        )

    def check_timeline(self, connection: Connection, server: Server, position: int) -> int | None:
        """Checks that what the store has is in the server's history too, where its timeline isn't
        that of the last session.

        A server that was promoted or put back has a timeline of its own. It left the old one at an
        LSN; what the store has above that is of commits that the server hasn't, and the server has
        others there. But a standby that was promoted since without being started anew has all that
        it ever sent.

        Returns None where the history goes on as it was, and else the LSN above which what was
        confirmed is of the other one.
        """
        known = self.checkpoint.known
        if not known.timeline or server.timeline == known.timeline:
            return None
        if known.started and known.started == server.started:
            log.info(
                f"the server was promoted while it was followed: it is on the timeline {server.timeline} now"
            )
            return None
        is_later = server.timeline > known.timeline
        left = left_at(connection, server.timeline, known.timeline) if is_later else None
        if left is None or position > left:
            self.note_history(server, left, position)
        shared = max(left or 0, position)
        log.warning(
            f"the server went on from the timeline {known.timeline} to {server.timeline} at {lsn_text(left or 0)}"
        )
        confirmed = min(known.confirmed, shared)
        # (nor is what a filter has noted above of this history)
        self.checkpoint.write(True, timeline=server.timeline, confirmed=confirmed, repeats=0)
        self.watch.show()
        return shared

    def note_history(self, server: Server, left: int | None, position: int) -> None:
        """Notes that the server has another history than the store. Where that is accepted, it
        sends nothing that ends up to the store's position, so its own commits up to there are
        passed over, and that is what is found then."""
        known, at = self.checkpoint.known, lsn_text(position)
        if not self.tolerance.accepts("history"):
            when = "never" if left is None else f"at {lsn_text(left)}"
            text = (
                f"the store is at {at} of the timeline {known.timeline}, which the server's timeline"
                f" {server.timeline} left {when}: the store has changes that the server hasn't"
            )
            self.watch.note("history", position, text)
            raise Unfit(f"{text}. Copy anew, or take it as it is by --accept history")
        after = "below" if left is None else f"from {lsn_text(left)} to"
        text = f"the server's commits {after} {at} are missing, and the store has others"
        self.watch.note("history", position, text)
        log.warning(f"found: history at {at}: {text}: verify --repair, then --accept history again")

    def check_start(self, slot_at: int, position: int, check: Check) -> None:
        """Rejects a gap, unless it is wanted. An accepted one is found until accepted again."""
        known = self.checkpoint.known
        is_wanted = known.phase == NEW and self.no_copy and position == 0
        if is_wanted:
            self.check_publications(check)
        try:
            check_gap(known, position, slot_at)
        except Unfit:
            if not (is_wanted or self.tolerance.accepts("gap")):
                raise
            log.warning(
                f"whatever changed before {lsn_text(slot_at)} and isn't in the store stays missing"
            )
            self.tolerance.use_gap()
            self.checkpoint.forget_server()
            self.checkpoint.write(False, confirmed=max(slot_at, position), position=position)
            if not is_wanted:
                text = f"changes before {lsn_text(slot_at)} that the store lacks may be missing"
                self.watch.note("slot", slot_at, text)

    def check_publications(self, check: Check) -> None:
        """Rejects names of none: the server would say so at the first change alone, and from 18 on
        never."""
        names = self.subscription.publications
        with self.subscription.connected("check", check) as connection:
            missing = [it for it in names if not has_publication(connection, it)]
        if missing:
            text = f"there is no publication {', '.join(missing)}: make it with its tables, or name another one by --publication"
            raise refusal(text)

    def note_server(self, server: Server, confirmed: int, position: int) -> None:
        """Notes durably whose changes the store has, and what its filter confirms."""
        known, remembered = self.checkpoint.known, self.watch.remembered
        if text := remembered.note_database(server.database_oid, server.database):
            log.warning(text)
        # (a feed keeps the name that it has begun with)
        if known.database and remembered.feed:
            server = dataclasses.replace(server, database=known.database)
        most = max(confirmed, known.confirmed), max(position, known.position)
        more = {"phase": FOLLOWING, "started": server.started}
        more |= {"confirmed": most[0], "position": most[1]}
        note_server(self.checkpoint, server, self.subscription.slot, **more)

    def check_slot(self, position: int, check: Check) -> None:
        """Checks the slot again once it is ours: somebody may have confirmed more meanwhile."""
        with self.subscription.connected("check", check) as connection:
            slot_at = slot_position(connection, self.subscription.slot)
        if slot_at is None:
            raise ServerError("another server answered")
        try:
            check_gap(self.checkpoint.known, position, slot_at)
        except Unfit as error:
            self.watch.note("slot", slot_at, str(error))
            raise
