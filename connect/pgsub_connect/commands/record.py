"""`pgsub-connect record`: only records a session."""

import argparse
import dataclasses

from pgsub_feed import log
from pgsub_feed.interruption import Check
from pgsub_feed.options import add_fields, file, flag, lsn, option
from pgsub_feed.program import stop_by_signals
from pgsub_feed.texts import literal

from ..copy.slots import create_slot
from ..record import RecordSettings, Recorder, Recording
from ..server.publication_setup import Maker
from .arguments import server, words
from .arguments.session import longest
from .arguments.words import any_seconds, check_files, check_needs, each, lsn_or_now, within

ABOUT = "record what a server sends, and confirm nothing"
ENDS = words.ENDS


@dataclasses.dataclass(frozen=True)
class Options(server.ServerOptions, server.PublishingOptions):
    """What is recorded, and where it begins and ends."""

    record: str = file(
        "the recording to write, a .pgx file of one session, which isn't confirmed", ""
    )
    append: bool = flag("add to the recording, after a line `--`")
    overwrite: bool = flag(
        "write or add to it whatever it was before (default: a recording, or empty)"
    )
    bytes: int = longest()
    start: int = option("where to start (default: where the slot is)", 0, type=lsn)
    until: int | str | None = option(
        "stop once all that was committed up to this LSN, or up to now, is recorded",
        type=lsn_or_now,
        value="LSN|now",
    )
    seconds: float | None = option("stop after N seconds", type=any_seconds)
    transactions: int | None = option("stop after N commits", type=within(0, 1 << 62))
    confirm: int = option(
        "confirm what was recorded up to this LSN, so that the server may forget it (default: nothing)",
        0,
        type=lsn,
    )
    streaming: bool = flag("stream large transactions while they run (--proto 2)")
    binary: bool = flag("ask for values in binary format")
    messages: bool = flag("ask for the messages of pg_logical_emit_message")
    create: str | None = option(
        "make them; a temporary slot goes at the end",
        nargs="?",
        const="permanent",
        choices=("permanent", "temporary"),
    )

    def settings(self) -> RecordSettings:
        asks_for = [it for it in ("streaming", "binary", "messages") if getattr(self, it)]
        ends = self.until, self.seconds, self.transactions, self.confirm
        is_temporary = self.create == "temporary"
        settings = RecordSettings(self.proto, asks_for, self.start, *ends)
        return dataclasses.replace(settings, heartbeat=self.heartbeat, is_temporary=is_temporary)


def add_options(parser: argparse.ArgumentParser) -> None:
    add_fields(parser.add_argument, server.ServerOptions)
    add = parser.add_argument_group("recording").add_argument
    add_fields(add, Options, without=Options.__bases__)
    add = parser.add_argument_group("publication and slot").add_argument
    add_fields(add, Options, server.PublishingOptions)


def check_options(parser: argparse.ArgumentParser, options: Options) -> Options:
    """Rejects options that don't go together."""
    server.check_creates(parser, options)
    check_needs(parser, options, ("append", "record"))
    if not options.record:
        parser.error("--record is needed")
    if options.streaming and options.proto != 2:
        parser.error("--streaming needs --proto 2")
    server.check_publishing(parser, options)
    return options


def settled(options: Options) -> Options:
    check_files("", {"--record": options.record}, {"--dsn-file": options.dsn_file})
    told = each("--table", options.table)
    return server.settled_server(options, keyless=options.keyless, told=told)


def run(options: Options, _: Check) -> int:
    subscription, wanted = options.subscription(), options.wanted(options.publication)
    recorder = Recorder(
        subscription,
        options.settings(),
        Recording(options.record, options.append, options.bytes, options.mode, options.overwrite),
    )
    stop_by_signals(recorder)
    maker, is_made = Maker(subscription, wanted, recorder.check_stop), False
    try:
        recorder.connect()
        if options.create == "temporary":
            maker.make()
        elif options.create:
            is_made = create_slot(maker, options.failover)
        recorder.run()
    finally:
        maker.take_back()
        recorder.close()
        if is_made:
            drop = f"SELECT pg_drop_replication_slot({literal(subscription.slot)})"
            text = f"the slot {subscription.slot} stays for another recording, and the server keeps its log for it until `{drop}`"
            log.info(text)
    return 0
