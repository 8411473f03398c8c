"""What others ask of a running follower: copies of its store for readers, tables to be added, rows
to be repaired, and to be told once the tables of `--tables` have an LSN."""

import contextlib
from collections.abc import Callable

from pgsub_feed.errors import Stopped
from pgsub_feed.json_texts import Unreadable, lsn_of
from pgsub_feed.texts import lsn_text

from ..add.adder import Adder
from ..stream.gate import WAITED, Gating
from ..stream.statuses import Reached
from .feed import Feeding
from .repair import Repairing
from .request_socket import Client, RequestSocket
from .upkeep import Upkeep


class Waits:
    """Once the store has all commits up to that LSN, it is known where the last of them ends that
    the tables need; a later one may be taken for it. They tell once they have that."""

    def __init__(
        self, requests: RequestSocket, stored: Callable[[], Reached], feeding: Feeding | None
    ) -> None:
        self.requests, self.stored, self.feeding = requests, stored, feeding
        # for which LSN each waits, and at which LSN the tables have all that is below it
        self.lsns: dict[Client, int] = {}
        self.ends: dict[Client, int] = {}

    def tend(self) -> None:
        """Answers those that can be answered now."""
        if not (self.requests.waiting or self.lsns):
            return
        for client in self.requests.those_waiting():
            if client in self.lsns or self.begin(client):
                self.look(client)
        for client in [it for it in self.lsns if it.is_gone]:
            del self.lsns[client]
            self.ends.pop(client, None)

    def begin(self, client: Client) -> bool:
        """Reads what is waited for. Returns false where it is nothing of this follower."""
        asked = client.asked or {}
        try:
            self.lsns[client] = lsn_of(asked.get("lsn"))
        except Unreadable as error:
            client.end(error=f"the request can't be read: {error}")
            return False
        beside = self.feeding.beside if self.feeding else None
        if beside is None or not beside.is_of(asked.get("tables")):
            client.end(error="the follower keeps no such tables", other=True)
            return False
        return True

    def look(self, client: Client) -> None:
        assert self.feeding and self.feeding.beside
        beside, lsn = self.feeding.beside, self.lsns[client]
        if client not in self.ends:
            reached = self.stored()
            if reached.confirmed < lsn:
                return
            self.ends[client] = reached.position
        end = min(lsn, self.ends[client])
        if beside.at >= end:
            client.end(reached=lsn_text(beside.at))
        else:
            beside.ask(end)


class Requests:
    """Goes on with each of them between payloads."""

    def __init__(self, adder: Adder, repairing: Repairing, upkeep: Upkeep) -> None:
        self.adder, self.repairing, self.upkeep = adder, repairing, upkeep
        self.snapshots, self.hold = repairing.snapshots, repairing.hold
        self.filter, self.confirming, self.ending = upkeep.filter, upkeep.confirming, upkeep.ending
        self.progress, self.socket = upkeep.life.progress, self.snapshots.requests
        asked = upkeep.subscription, self.progress, self.hold, upkeep.serve_server, self.let_go
        self.gating = Gating(*asked)
        self.waits = Waits(self.socket, self.confirming.stored, upkeep.life.feeding)
        # the filter's status of which those who read beside the follower were told
        self.told = b""

    def begin_session(self, streams: bool) -> bool:
        """A session begins. Returns whether it has to be one of whole transactions."""
        adds = self.adder.begin_session(self.confirming.position, streams)
        repairs = self.repairing.begin_session(streams)
        return adds or repairs

    def end_session(self) -> None:
        self.adder.end_session()
        self.repairing.end_session()
        self.gating.end_session()
        self.hold.end_session()

    def step(self) -> bool:
        """Goes on with additions and repairs. Returns whether another session is to begin."""
        # (behind a repair nothing is passed on in this session)
        self.repairing.step()
        if self.repairing.wants_session() or not self.hold.keeps and self.adder.wants_session():
            return True
        self.adder.step()
        self.gating.step()
        return False

    def holds_for_copy(self) -> bool:
        """Copies the store for readers, where that is due, once all commits that were passed on are
        stored.

        Until then nothing more is passed on, nor where the stream is held for a copy at one LSN:
        returns whether so. The filter has nothing to write meanwhile, and what it has buffered of
        open transactions isn't in the store.
        """
        if self.ending.stop_asked:
            return False
        is_due = self.snapshots.is_due(self.confirming.position)
        self.tell_readers()
        if not is_due:
            return self.stops()
        if self.filter.is_running() and not self.confirming.is_stored():
            return True
        if self.hold.keeps:
            self.repairing.look()
        state = self.progress.state
        self.progress.enter("copying the store")
        with contextlib.suppress(Stopped):
            # (whoever has called this sees that, and ends)
            self.snapshots.take(self.confirming.position, self.serve_copy)
        self.progress.enter(state)
        return self.stops()

    def stops(self) -> bool:
        """Whether nothing may be passed on now."""
        return self.hold.stops() or self.adder.place.stops()

    def tell_readers(self) -> None:
        """Tells those who read beside the follower what the store has now."""
        if self.filter.status is not self.told:
            self.told = self.filter.status
            self.confirming.forget_confirmed(self.filter.confirmed())
            if feeding := self.upkeep.life.feeding:
                feeding.tell(self.confirming.stored())
        self.waits.tend()

    def serve_copy(self) -> None:
        """Keeps the server content during a copy, which ends where commits wait for too long."""
        self.upkeep.serve_server()
        if self.gating.is_over():
            raise OSError(0, WAITED)

    def let_go(self, why: str) -> None:
        """Goes on, whatever the stream is held for."""
        if self.hold.keeps:
            self.repairing.give_up(why, False, delays=True)
        else:
            self.snapshots.reject(why)
            self.hold.end()
