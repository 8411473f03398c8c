"""`pgsub-connect follow`: carries a slot's changes to `pgsub follow`, and its statuses back."""

import argparse
import contextlib
import dataclasses
import os
import signal
from collections.abc import Iterable, Iterator
from typing import TYPE_CHECKING

from pgsub_feed.errors import Stopped, Unfit
from pgsub_feed.files import meant, remove_files
from pgsub_feed.interruption import Check, is_ended
from pgsub_feed.options import add_fields, file, option
from pgsub_feed.program import stop_by_signals

from ..drift.remembered import Remembered
from ..errors import MISSED, LostSlot
from ..follow.feed import Feeding
from ..follow.follower import Follower
from ..follow.request_socket import RequestSocket
from ..follow.retention import remove_feed
from ..follow.server_watch import Asker
from ..follow.settings import FollowSettings
from ..follow.snapshots import Snapshots
from ..record import Aside
from ..server import transport
from ..status.files import STATUS, ReportSettings, Reporter
from ..status.notify import notifier_of
from ..status.progress import Progress
from ..store.at_rest import is_whole
from ..store.checkpoint import Checkpoint
from ..store.checkpoint_lines import COPYING, FOLLOWING, INTERRUPTED, NEW
from ..store.placing import OF_STORE, check_meant
from ..store.repeats_file import RepeatsFile
from ..store.spool_folder import SUFFIX as SPOOL, SpoolFolder, check_spool, remove_spool
from ..stream.common import Common, Tolerance
from ..stream.filter import MAX_BUFFERED, WATCH, Filter
from ..stream.filter_end import FilterEnded
from ..stream.left_file import LeftFile
from ..stream.memory_limit import default_in_memory
from .arguments import session, words
from .arguments.feed import FeedOptions, settled_feed
from .arguments.following import check_numeric
from .arguments.server import (
    CopyOptions,
    ServerOptions,
    add_copying,
    check_creates,
    check_publishing,
    settled_server,
)
from .arguments.words import check_files, check_needs, each, within
from .snapshot import check_copied

if TYPE_CHECKING:
    # (the start of one that has its store takes as long as what it imports)
    from ..copy.copier import Copier, CopySettings

ABOUT = "copy tables into a store, and follow their changes"
ENDS = words.ENDS


@dataclasses.dataclass(frozen=True)
class Options(
    ServerOptions,
    CopyOptions,
    session.SizeOptions,
    session.SessionOptions,
    session.AlterOptions,
    session.WatchOptions,
    FeedOptions,
):
    """What is followed, into which store, and for how long."""

    store: str = ""
    record: str | None = file("add the sessions to this recording, a .pgx file")
    bytes: int = session.longest()
    check_every: int = option(
        "read and check all rows of the store at each N-th start; the others trust what the one before left (default: 30)",
        30,
        type=within(1, 1 << 31),
        value="N",
    )

    def follow_settings(self) -> FollowSettings:
        more = self.skip, self.until, self.no_copy, self.limits(), self.renewed()
        settings = FollowSettings(self.store, self.proto, self.heartbeat, self.silence, *more)
        return dataclasses.replace(settings, messages=bool(self.messages))

    def copy_settings(self) -> "CopySettings":
        from ..copy.copier import CopySettings

        wanted = self.wanted(self.publication)
        more = self.limits(), self.failover, self.jobs, self.mode, bool(self.messages)
        return CopySettings(self.store, wanted, *more)

    def report_settings(self) -> ReportSettings:
        is_asked_for = bool(self.status_file or self.metrics_file)
        files = self.status_file or self.store + STATUS, self.metrics_file
        return ReportSettings(self.store, self.slot, self.pgsub, *files, self.mode, is_asked_for)


def add_options(parser: argparse.ArgumentParser) -> None:
    add_fields(parser.add_argument, ServerOptions)
    group = parser.add_argument_group("the store")
    store = group.add_argument
    store("--store", metavar="FILE", default="", help="keep the copies in this store")
    add_fields(store, session.SizeOptions)
    session.add_session(group)
    add_fields(store, session.AlterOptions)
    add_copying(parser)
    add_fields(parser.add_argument_group("watching").add_argument, session.WatchOptions)
    add_fields(parser.add_argument_group("the feed").add_argument, FeedOptions)
    add_fields(
        parser.add_argument_group("recording").add_argument, Options, without=Options.__bases__
    )


def check_options(parser: argparse.ArgumentParser, options: Options) -> Options:
    """Rejects options that don't go together."""
    check_creates(parser, options)
    of_store = ((it, "store") for it in ("snapshot", "skip", "strict"))
    check_needs(parser, options, *of_store, ("snapshot_every", "snapshot"))
    if options.tables and options.without_tables:
        parser.error("--tables and --without-tables exclude each other")
    if options.messages and options.without_messages:
        parser.error("--messages and --without-messages exclude each other")
    check_numeric(parser, options.numeric, options.digests)
    if options.strict and options.watch == words.NO:
        parser.error("--strict and --watch no exclude each other")
    if not options.store:
        parser.error("--store is needed")
    check_publishing(parser, options)
    return options


def settled(options: Options) -> Options:
    options = settled_feed(options, options.store)
    written = {
        "--snapshot": options.snapshot,
        "--status-file": options.status_file or options.store + STATUS,
        "--metrics-file": options.metrics_file,
        "--record": options.record,
        "--tables": options.tables,
        "--feed": options.feed,
    }
    read = {"--dsn-file": options.dsn_file, "--init": options.init}
    check_files(options.store, written, read)
    # (the program is told the whole path of a feed)
    feed = os.path.abspath(options.feed) if options.feed else ""
    told = [("--store", options.store), ("--pgsub", options.pgsub), ("--feed", feed)]
    told = [*each("--table", options.table), *told, ("--store", meant(options.store))]
    return session.settled_sizes(settled_server(options, options.store, options.keyless, told))


def run(options: Options, check: Check) -> int:
    check_start(options)
    before = own_files(options.store)
    checkpoint = Checkpoint(options.store, check)
    # (from here on a session is judged by what it says of the earlier ones)
    transport.OWN.begin(checkpoint.known.encrypted, options.accept)
    others = options.feed, options.tables, options.record
    with leaving_nothing(checkpoint, before, others):
        return follow_locked(options, checkpoint, check)


def own_files(store: str) -> set[str]:
    """The files of a store that are there; the program has its own ones where a link leads."""
    names = {name + it for name in (store, meant(store)) for it in (STATUS, *OF_STORE)}
    return {it for it in names if os.path.lexists(it)}


@contextlib.contextmanager
def leaving_nothing(
    checkpoint: Checkpoint, before: set[str], others: Iterable[str | None]
) -> Iterator[None]:
    """Removes what wasn't among a store's files before, and others, unless there is a slot by now
    that the next start goes on with. The checkpoint is locked, and so goes last."""
    new = [it for it in others if it and not os.path.lexists(it)]
    try:
        yield
    finally:
        if checkpoint.known.phase in (NEW, COPYING):
            store = checkpoint.path.removesuffix(".connector")
            made = own_files(store) - before
            # (publications that can't be dropped now are remembered)
            if store + ".tables" in made and Remembered(store).made:
                made.remove(store + ".tables")
            for path in (*new, *sorted(made, key=lambda it: it == checkpoint.path)):
                with contextlib.suppress(OSError):
                    if path in made and path.endswith(SPOOL):
                        remove_spool(path)
                    elif os.path.isdir(path):
                        remove_feed(path)
                    else:
                        remove_files(path)


def follow_locked(options: Options, checkpoint: Checkpoint, check: Check) -> int:
    """Follows, where no other connector does."""
    parts = made(options, checkpoint)
    signal.signal(signal.SIGUSR1, lambda *_: parts.snapshots.ask())
    workers = [*([parts.copier] if parts.copier else []), parts.follower.ending]
    stop_by_signals(*workers)
    if is_ended(check):
        for worker in workers:
            worker.ask_to_stop()
    for it in parts.threads:
        it.start()
    progress = parts.common.progress
    try:
        with contextlib.suppress(Stopped):
            follow_with(options, parts)
        parts.feeding.check_read()
        progress.enter("stopped")
    except Exception as error:
        progress.note_error(error.with_cure() if isinstance(error, FilterEnded) else str(error))
        if isinstance(error, LostSlot):
            progress.slot.note("lost", None)
        progress.enter("failed")
        raise
    finally:
        parts.finish()
    return MISSED if parts.follower.misses.count else 0


def check_start(options: Options) -> None:
    """Rejects a start before there is a file that would stay."""
    if options.snapshot:
        check_copied(options.store, options.snapshot, "--snapshot")
    check_meant(options.store)
    if options.spool_memory != words.NO:
        check_spool(options.store)
    is_there = any(os.path.exists(options.store + it) for it in ("", ".connector"))
    if not (options.create or options.no_copy or is_there):
        raise no_store(options)


def no_store(options: Options) -> Unfit:
    return Unfit(
        f"there is no store {options.store}: --create makes it, with publication and slot; see --help"
    )


@dataclasses.dataclass(frozen=True)
class Parts:
    """What takes part in following. `copier`: what makes the copy, where there is none; `threads`:
    what asks the server how far it is, and what shows that."""

    common: Common
    feeding: Feeding
    recording: Aside | None
    child: Filter
    requests: RequestSocket
    snapshots: Snapshots
    copier: "Copier | None"
    follower: Follower
    threads: tuple[Asker | Reporter, ...]

    def finish(self) -> None:
        self.child.kill()
        if self.child.spool:
            self.child.spool.remove()
        self.feeding.finish()
        if self.recording:
            self.recording.flush()
        for it in self.threads:
            it.finish()
        self.requests.close()


def made(options: Options, checkpoint: Checkpoint) -> Parts:
    """Makes all that takes part; nothing runs yet."""
    store, mode = options.store, options.mode
    subscription, tolerance = options.subscription(), Tolerance(options.accept, options.strict)
    progress, remembered = Progress(notifier_of(os.environ)), Remembered(store, mode)
    common = Common(subscription, tolerance, checkpoint, progress, remembered)
    feeding = Feeding(options.feed_settings(store, mode), common)
    feeding.check()
    child = make_filter(options, checkpoint)
    progress.spool.note_path(child.spool.path if child.spool else "")
    begin_watching(options, common, child)
    copier = None if is_whole(store) else make_copier(options, common, child, feeding)
    recording = Aside(options.record, True, options.bytes, mode) if options.record else None
    requests = RequestSocket(store, mode)
    snapshots = Snapshots(store, requests, options.snapshot, options.snapshot_every, mode)
    settings, report = options.follow_settings(), options.report_settings()
    follower = Follower(settings, common, child, recording, snapshots, feeding)
    threads = Asker(subscription, report.is_asked_for, progress), Reporter(report, progress)
    return Parts(common, feeding, recording, child, requests, snapshots, copier, follower, threads)


def make_copier(options: Options, common: Common, child: Filter, feeding: Feeding) -> "Copier":
    from ..copy.copier import Copier

    return Copier(options.copy_settings(), common, child, feeding.rows_beside())


def make_filter(options: Options, checkpoint: Checkpoint) -> Filter:
    told = [options.pgsub, "follow", "--store", meant(options.store)]
    told += ["--max-frame", str(options.max_frame)]
    told += ["--cache", str(options.cache)] if options.cache else []
    told += [MAX_BUFFERED, str(options.max_buffered)] if options.is_bounded else []
    left, spool = LeftFile(options.store, options.check_every), make_spool(options)
    return Filter(told, (checkpoint.file,), options.proto, options.mode, left, spool)


def make_spool(options: Options) -> SpoolFolder | None:
    """Where open transactions go on that memory doesn't hold, None where all stay there."""
    said = options.spool_memory
    stays = default_in_memory() if said in (0, words.NO) else int(said)
    spool = SpoolFolder(options.store, stays)
    # (what a killed run has left)
    spool.end()
    spool.remove()
    return None if said == words.NO else spool


def begin_watching(options: Options, common: Common, child: Filter) -> None:
    """Has the filter watch the server, as far as it is to."""
    if options.watch != words.NO:
        child.add_words([WATCH, "stop" if common.tolerance.stops else "tell"])
    if options.watch != session.ALL:
        # (commits come now that aren't noted)
        return common.checkpoint.forget_repeats()
    asked = common.subscription, bool(options.messages)
    return child.note_repeats(RepeatsFile(options.store, common.checkpoint, *asked))


def follow_with(options: Options, parts: Parts) -> None:
    """Makes the copy where there is none, and follows."""
    follower = parts.follower
    if not is_whole(options.store):
        begin(options, parts)
        follower.start.note_connected(parts.copier is not None and parts.copier.was_connected)
    elif options.table or options.all_tables:
        from ..server.preflight import require_published

        wanted = options.wanted(options.publication)
        require_published(parts.common.subscription, wanted, follower.ending.check_stop)
    stored, wake = follower.confirming.stored, parts.requests.wake
    parts.feeding.begin(parts.child, stored, follower.ending.check_stop, wake)
    follower.run()


def begin(options: Options, parts: Parts) -> None:
    """What a start does where there is no store."""
    subscription, tolerance, checkpoint, _, remembered = parts.common
    is_interrupted = checkpoint.known.phase in INTERRUPTED
    if options.no_copy and os.path.exists(options.store):
        text = f"{options.store} lacks rows, since its copy was interrupted: leave --no-copy out to go on with it, or `pgsub-connect drop` it"
        raise Unfit(text)
    if (options.create or is_interrupted) and not options.no_copy:
        with parts.child.noting_none():
            assert parts.copier
            return parts.copier.run()
    if checkpoint.known.phase == FOLLOWING and not tolerance.accepts("gap"):
        text = f"{options.store} is gone, and the slot {checkpoint.known.slot} went on: remove {checkpoint.path} to begin anew"
        raise Unfit(text)
    if not options.create and not options.no_copy:
        raise no_store(options)
    if options.create:
        from ..copy.slots import create_slot
        from ..server.publication_setup import Maker

        wanted, check = options.wanted(options.publication), parts.follower.ending.check_stop
        maker = Maker(subscription, wanted, check, remembered.made, remembered.keep_made)
        create_slot(maker, options.failover, remembered, bool(options.messages))
    else:
        remembered.remove()
