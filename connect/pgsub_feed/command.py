"""`pgsub-feed`: prints what a feed has, for people and for other programs."""

import contextlib
import dataclasses
import re
import signal
import sys
from collections.abc import Sequence

from . import log
from .column_types import FeedTypes
from .debezium.envelopes import Debezium, Envelopes
from .debezium.settings import DEBEZIUM, SCHEMAS, Settings, read_settings
from .errors import Stopped, UsageError
from .formats.bulk import Bulk, Command
from .formats.lines import ByName, Lines
from .interruption import Check
from .known_tables import known_beside
from .options import Parser, add_fields, add_version, file, flag, lsn, option, plain_name
from .pipe.pipes import Pipes
from .pipe.serving import serve
from .program import check_signals, guarded
from .reader.following import Chosen
from .reader.polling import Poll
from .reader.segments import Reader
from .reader.whole import Whole
from .sinks.first_rows import exported
from .standard import open_closed
from .undo.transaction import undo

Format = Lines | ByName | Debezium | Bulk
# Control characters that JSON leaves as they are: terminals take them for commands.
CONTROLS = re.compile(b"\x7f|\xc2[\x80-\x9f]")
ABOUT = """\
Prints the commits of a feed.

  pgsub-feed --feed copy.feed --from 0/25504168 --follow                    those after an LSN, and the ones that come
  pgsub-feed --feed copy.feed --undo 0/25504168 0/25504300 --table stock    SQL that takes commits back at the publisher
  pgsub-feed --feed copy.feed --pipe --follow --reader mirror               for a reader on another host, as ssh runs it
"""
FORMATS_ABOUT = """\
formats: `lines` are the feed's own, whole commits. `objects` has an object for each change: its id, made of the LSN at which the commit
ends and the number of the change, xid and time, op (c, u, d or t; r of a row from before; x of one that found no row), schema, table, and the row before and after
it by the names of the columns; of a logical message (m) its LSN, prefix and content. Values are numbers, true and false, or as the server prints them. `debezium` has the envelope of Debezium's
connector for PostgreSQL (FEED.md says what differs), for an update of a key a delete and an insert; with --keys the key and a tab before
each, and a tombstone after a delete, which is a key and a tab alone.

`bulk` has the lines of a bulk request of Elasticsearch and OpenSearch: what each commit leaves of each row that it changes, as a document
that is indexed or deleted with the commit's LSN as its external version, so the lines can be sent again: what a document has already is
rejected with 409. Tables without a key are left out. A TRUNCATE ends it with 5, unless --on-truncate names a command: that is run once the
lines before are written, and has to wait until whoever reads them has sent them; then it makes the index anew, since a deleted document
keeps its version for a while. Where it fails this ends with 7, before the lines of that commit. Of a table that is dropped, or gets another
name or shape, documents stay as they are until their rows change. Of a table with REPLICA IDENTITY FULL, or another index, the key is the primary
key that the follower of the store has seen. One that gets another is left out, seconds later, until its rows come anew; started anew, this
names documents by the other one.

exit status: 0 ended as asked; 2 usage error; 3 a file can't be used; 5 the feed lacks commits after that LSN; 6 a bug; 7 something is in
the way only for now
"""


@dataclasses.dataclass
class Options:
    """The words of the command line."""

    feed: str = option("the feed", required=True, value="FOLDER")
    begin: int | None = option(
        "commits after this one, which must be the end of one (default: all, behind the rows from before the first)",
        type=lsn,
        word="--from",
    )
    end: int | None = option(
        "end before the first commit that ends above this LSN", type=lsn, word="--to"
    )
    follow: bool = flag("go on with the commits that come")
    format: str = option(
        "default: objects", "objects", choices=["lines", "objects", "debezium", "bulk"]
    )
    debezium: Sequence[str] = option(f"with --format debezium: {DEBEZIUM}", (), value="NAME=VALUE")
    schemas: bool = flag(f"with --format debezium: {SCHEMAS}")
    keys: bool = flag(
        "with --format debezium: before each value its key and a tab; tombstones, too"
    )
    base: str | None = file(
        "begin with the rows of this export, made with --text (default: with those beside the feed)"
    )
    on_truncate: str = option(
        "with --format bulk: run this for each TRUNCATE, with the table, the LSN and the index behind it, to delete all its documents",
        "",
        value="COMMAND",
    )
    truncated: int | None = option(
        "with --format bulk: all documents were deleted of the tables that the commit which ends there truncates",
        type=lsn,
    )
    store: str = file(
        "with --format bulk or debezium: the store of the feed, whose follower knows primary keys that no message tells (default: the one beside the feed)",
        "",
    )
    table: Sequence[str] = option(
        "changes of this table, and messages, may be repeated (default: of all): t, or s.t of another schema than public; quoted as in SQL or not",
        (),
    )
    pipe: bool = flag(
        "give commits to a reader elsewhere, which writes its LSN to standard input, and again what it has"
    )
    reader: str | None = option(
        "with --pipe: keep that LSN as FOLDER/readers/NAME, so that the feed keeps what it lacks",
        type=plain_name,
    )
    undo: Sequence[int] | None = option(
        "print the SQL that takes the commits after FROM, up to TO, back", type=lsn, value="FROM TO"
    )


def arguments(words: Sequence[str]) -> Options:
    parser = Parser("pgsub-feed", ABOUT, FORMATS_ABOUT)
    add_fields(parser.add_argument, Options)
    add_version(parser)
    parser.check(words)
    options = Options(**vars(parser.parse_args(words)))
    if options.undo and (options.follow or options.begin is not None or options.end is not None):
        parser.error("--undo has its own LSNs, and doesn't follow")
    check_pipe(parser, options)
    if options.table and options.format == "lines" and not options.undo:
        parser.error("the lines of a commit are printed whole: --table needs another format")
    if (options.truncated is not None or options.on_truncate) and options.format != "bulk":
        parser.error("--truncated and --on-truncate are for --format bulk")
    if options.base and (options.begin or options.pipe or options.undo):
        parser.error("--base is for who has no rows: without --from, --pipe and --undo")
    if options.store and options.format not in ("bulk", "debezium"):
        parser.error("--store is for --format bulk and debezium")
    if (options.debezium or options.schemas or options.keys) and options.format != "debezium":
        parser.error("--debezium, --schemas and --keys are for --format debezium")
    try:
        settings_of(options)
    except UsageError as error:
        parser.error(f"--debezium {error}")
    return options


def check_pipe(parser: Parser, options: Options) -> None:
    if options.reader and not options.pipe:
        parser.error("--reader is for --pipe")
    asked = options.undo, options.begin, options.end, options.table, options.truncated
    if options.pipe and any(asked):
        parser.error("--pipe gives whole commits, from the LSN on that its reader says")


def settings_of(options: Options) -> Settings:
    return read_settings(options.debezium, options.schemas)


def form_of(options: Options, chosen: Chosen, check: Check) -> Format:
    if options.format == "lines":
        return Lines()
    if options.format == "objects":
        return ByName(chosen)
    known = known_beside(options.feed, options.store)
    if options.format == "debezium":
        types = FeedTypes(options.feed, check)
        envelopes = Envelopes(settings_of(options), known, check, types)
        return Debezium(chosen, envelopes, options.keys)
    command = Command(options.on_truncate, check) if options.on_truncate else None
    return Bulk(chosen, options.truncated, known, check=check, command=command)


def run(options: Options, check: Check) -> int:
    if options.pipe:
        with contextlib.suppress(Stopped):
            signal.signal(signal.SIGPIPE, signal.SIG_IGN)
            serve(options.feed, Pipes(0, 1, check), options.follow, options.reader, check)
        return 0
    chosen = Chosen(options.table)
    with contextlib.ExitStack() as opened, contextlib.suppress(Stopped):
        if options.undo:
            reader = opened.enter_context(contextlib.closing(Reader(options.feed, options.undo[0])))
            undo(reader, options.undo[1], chosen, check, put)
            return 0
        names = tuple(options.table)
        rows = opened.enter_context(exported(options.base, names)) if options.base else None
        whole = opened.enter_context(contextlib.closing(Whole(options.feed, options.begin, rows)))
        form = form_of(options, chosen, check)
        print_commits(Poll(whole, options.follow, check), options, form, chosen)
    return 0


def put(text: bytes) -> None:
    sys.stdout.buffer.write(CONTROLS.sub(escape, text) if sys.stdout.isatty() else text)


def escape(control: re.Match[bytes]) -> bytes:
    return b"\\u%04x" % ord(control[0].decode())


def tell_unseen(chosen: Chosen) -> None:
    """Warns of each name that no table has had so far, once."""
    for name in sorted(chosen.unseen):
        log.warning(f"--table {name}: no commit has changed such a table so far")
    chosen.unseen.clear()


def print_commits(poll: Poll, options: Options, form: Format, chosen: Chosen) -> None:
    for commit in poll.commits(lambda: tell_unseen(chosen)):
        if commit.base is not None and options.format != "lines":
            # (a row from before is one of their LSN, also where others follow)
            commit = commit._replace(end=commit.lsn or 0)
        if options.end is not None and commit.end > options.end:
            break
        poll.check()
        for line in form.print(poll.reader, commit):
            put(line)
        sys.stdout.buffer.flush()
    tell_unseen(chosen)
    sys.stdout.buffer.flush()


def main(words: Sequence[str]) -> int:
    options, check = arguments(words), check_signals()
    return guarded(lambda: run(options, check))


def start() -> None:
    open_closed()
    log.name_program("pgsub-feed")
    # (who reads it may end first)
    signal.signal(signal.SIGPIPE, signal.SIG_DFL)
    sys.exit(main(sys.argv[1:]))
