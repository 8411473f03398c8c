"""Compares the copy of a running follower with its server, both as they were at one LSN (the
module `stream.hold` says how), and repairs its rows as `verify.repair_rows` says."""

import contextlib
import dataclasses
import os
from collections.abc import Iterator
from contextlib import closing

from pgsub_feed import log
from pgsub_feed.errors import Passing
from pgsub_feed.files import own_name, remove, remove_files
from pgsub_feed.interruption import Check, rest
from pgsub_feed.texts import counted, lsn_text

from ..copy.source import Source
from ..drift.remembered import Remembered
from ..errors import Delayed, Unrepaired
from ..server.catalog import Table
from ..server.login import parameters
from ..server.publication_setup import names_of
from ..server.publications import sizes_of
from ..server.session import Subscription, waits_for
from ..store.at_rest import check_there, follower_of, is_copied, is_followed
from ..store.checkpoint import read_known
from ..store.socket_file import Asking
from ..stream.gate import CURE, TABLE
from ..stream.hold import CHANGES
from .comparison import Choose, Compared, Verifier, among, settled, tell_left
from .repair_rows import Changes, Mender
from .sides import Copy, Sides

# How long a follower may take until it holds the stream, in seconds: it may be about to connect, or
# to open its store; and so long may tables be locked by others. And for how much longer than a slot
# may take it may hold it: who asked lets it go before, unless it hangs.
PATIENCE, MARGIN = 60.0, 5.0


class Request:
    """A request for the follower's copy at an LSN that is told once the stream is held. With it
    goes the hold.

    `repairs`: the stream stays held, until changes are passed on.
    """

    def __init__(self, store: str, seconds: float, check: Check, repairs: bool = False) -> None:
        self.store, self.seconds, self.check = store, seconds, check
        self.into = os.path.abspath(own_name(store + ".export"))
        # the file with changes
        self.changes = self.into + CHANGES
        self.more = {"repair": True} if repairs else {}
        self.asking: Asking | None = None

    def hold(self, maker: int = 0, standbys: str = "") -> None:
        """Has the follower hold the stream. `maker`: the process at the server that makes the slot;
        `standbys`: for which standbys commits wait there."""
        asking = self.asking = follower_of(self.store, self.check)
        if asking is None:
            raise self.ended()
        fields = {"seconds": self.seconds + MARGIN, "maker": maker, "standbys": standbys}
        asking.say(ask="hold", into=self.into, **fields, **self.more)
        answer = asking.answer(PATIENCE)
        if answer is None:
            raise self.ended()
        if "held" not in answer:
            why = answer.get("error")
            raise Passing(f"{self.store}: its follower can't hold the stream: {why}")

    def tell(self, point: int) -> None:
        """Lets the stream go on up to this LSN, where the copy is taken."""
        assert self.asking
        self.asking.say(point=lsn_text(point))

    def copied(self) -> str:
        """Waits for the copy, and returns its path."""
        if self.asking is None or not is_copied(self.asking, self.into):
            raise self.ended()
        return self.into

    def pass_on(self, tables: list[int]) -> None:
        """Has the follower pass on the changes in the file, and waits until they are stored."""
        assert self.asking
        self.asking.say(tables=tables)
        # (what was passed on is stored in its time)
        answer = self.asking.answer(PATIENCE, lambda: True)
        if answer is None:
            text = f"{self.store} isn't followed any more: compare again, to see whether it is repaired"
            raise Passing(text)
        if "repaired" not in answer:
            lasts, delays = answer.get("lasts"), answer.get("delays")
            kind = Unrepaired if lasts else Delayed if delays else Passing
            raise kind(f"{self.store}: its follower repaired nothing: {answer.get('error')}")

    def ended(self) -> Passing:
        return Passing(
            f"nobody follows into {self.store}: a follower has to run, which brings its copy to the LSN of the comparison"
        )

    def close(self) -> None:
        if self.asking:
            self.asking.say(ends=True)
            self.asking.close()
            self.asking = None
        remove(self.changes)
        remove_files(self.into)


# How often a repair is tried for which commits have to wait, and after how many seconds each.
TRIES, PAUSE = 3, 2.0


@dataclasses.dataclass(frozen=True)
class StoreComparison:
    """Which store is compared with which server. `hold`: for how many seconds a slot is waited for,
    and the stream may be held; `show`: how many keys that differ are printed."""

    subscription: Subscription
    store: str
    hold: float = 10.0
    show: int = 20


def compare(comparison: StoreComparison, choose: Choose, found: Compared, check: Check) -> None:
    """Compares, and tells what differs."""
    with met(comparison, choose, check) as (sides, chosen, _, point):
        tables = found.leave(chosen, sides.source.left)
        tell_left(sides)
        verifier = Verifier(comparison.show, sides)
        is_equal = verifier.run(tables)
    text = f"{counted(len(tables), 'table')}, {counted(verifier.rows, 'row')} on the server at {lsn_text(point)}"
    log.info(f"{text}: {'equal' if is_equal else 'the copy differs'}")
    found.different.extend(verifier.different)


def repair(comparison: StoreComparison, found: Compared, check: Check) -> list[Table]:
    """Repairs, at another try where commits had to wait for too long."""
    for _ in range(TRIES - 1):
        try:
            return repair_once(comparison, found, check)
        except Delayed as error:
            log.warning(f"{error}: it is tried again")
            rest(PAUSE, check)
    return repair_once(comparison, found, check)


def repair_once(comparison: StoreComparison, found: Compared, check: Check) -> list[Table]:
    """Compares tables once more, while the stream is held, and has the changes passed on. Returns
    those that are to be copied anew."""
    again = among([it.oid for it in found.different])
    with met(comparison, again, check, repairs=True) as (sides, chosen, request, point):
        tables = found.leave_more(chosen, sides.source.left)
        with closing(Changes(request.changes, comparison.store)) as changes:
            mender = Mender(sides, changes, bool(Remembered(comparison.store).feed))
            mender.run(tables)
        if mender.written:
            request.pass_on(list(mender.written))
            log.info(f"repaired at {lsn_text(point)}: {mender.text()}")
    return mender.left


# A server and a copy, the tables that are looked at, the request, and the LSN.
Met = tuple[Sides, list[Table], Request, int]


@contextlib.contextmanager
def met(
    comparison: StoreComparison, choose: Choose, check: Check, repairs: bool = False
) -> Iterator[Met]:
    """Brings server and copy to one LSN. `repairs`: there the stream stays held."""
    store, subscription = comparison.store, comparison.subscription
    check_there(store)
    known = read_known(store + ".connector")
    subscription = dataclasses.replace(subscription, slot=known.slot or subscription.slot)
    with closing(Request(store, comparison.hold, check, repairs)) as request:
        if not is_followed(store):
            raise request.ended()
        with closing(Source(subscription, store, known, check, "verify")) as source:
            tables = settled(choose(source), known, Remembered(store).partial)
            if repairs:
                check_sizes(subscription, source, tables)
            point = meet(request, source, comparison.hold)
            with closing(Copy(request.copied(), store, point, check)) as copy:
                yield Sides(source, copy), tables, request, point


def check_sizes(subscription: Subscription, source: Source, tables: list[Table]) -> None:
    """Rejects a repair for which commits at the server would wait for too long, before any does."""
    name = parameters(subscription.dsn).get("application_name") or subscription.slot
    if not waits_for(source.standbys(), name):
        return
    size = sum(sizes_of(source.plain, tables).values())
    if size > TABLE:
        raise Unrepaired(
            f"{names_of([it.text() for it in tables])}: {size} bytes would be compared while commits"
            f" at the server wait for the follower, so no row is repaired: {CURE}"
        )


def meet(request: Request, source: Source, seconds: float) -> int:
    """Has server and copy meet at one LSN, and returns it. The stream is held until then."""
    request.hold(source.maker(), source.standbys())
    point, snapshot = source.make_slot(seconds)
    request.tell(point)
    source.see(snapshot, leaves=True)
    return point
