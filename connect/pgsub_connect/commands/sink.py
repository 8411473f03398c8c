"""`pgsub-connect sink`: a feed's commits, written to Redis, NATS JetStream or Kafka."""

import argparse
import contextlib
import dataclasses
import os
from collections.abc import Sequence

from pgsub_feed import log
from pgsub_feed.column_types import FeedTypes
from pgsub_feed.debezium.settings import DEBEZIUM, SCHEMAS
from pgsub_feed.errors import NoFeed, Passing, UsageError
from pgsub_feed.interruption import Check
from pgsub_feed.known_tables import KnownTables, known_beside
from pgsub_feed.options import add_fields, file, flag, lsn, no, option
from pgsub_feed.ownership import readable_by, readable_text
from pgsub_feed.reader.folder import segments
from pgsub_feed.sinks import kafka_engine, nats_engine, redis_calls, urls
from pgsub_feed.sinks.urls import ENVIRONMENT, FORMS, scheme
from pgsub_feed.sinks.engine import Alone, Engine
from pgsub_feed.sinks.following import keep
from pgsub_feed.sinks.redis_engine import Redis, Writer
from pgsub_feed.sinks.redis_hashes import Hashes
from pgsub_feed.sinks.redis_streams import Streams

from .arguments.following import FollowingOptions, add_following
from .arguments.words import check_texts, each, use_mode, within

ABOUT = """\
write a feed to Redis, NATS JetStream or Kafka

  pgsub-connect sink redis://localhost/1 --feed FOLDER                  a hash for each row, as `stock:A-1`
  pgsub-connect sink redis://localhost/1 --feed FOLDER --as streams     a stream for each table, with an entry for each change
  pgsub-connect sink nats://localhost --feed FOLDER                     a message for each change, and a last one for each commit
  pgsub-connect sink kafka://localhost:9092 --feed FOLDER               a topic for each table, with Debezium's messages

The LSN is kept with what is written, so each commit takes effect once (Kafka: at least once), and a later run goes on from there. A new one begins with the feed's
first rows, or those of an export. An engine that is away is waited for, unless --once is said. Values are texts as in the feed.

Redis: a hash's fields are the columns that aren't null, and `pgsub:lsn` has the LSN, of the same MULTI. Tables of schemas but `public` are
called `schema.table`; in these names `%`, `:` and `.` are %25, %3A and %2E, in the values of keys `%` and `:` are %25 and %3A, and null is
%null. A table's rows go with it to another name or shape, by the names of its columns. What lost its name to another table, as one that was
dropped does, is `pgsub:old:OID` until it has one again. A sink that is started ends one that writes there. A long commit is
written in several steps, `pgsub:lsn` last.
The certificate of rediss:// has to be the host's, unless the URL has `?ssl_check_hostname=False`; `ssl_ca_certs=FILE` has who may sign it,
`ssl_certfile=FILE` and `ssl_keyfile=FILE` the sink's own. One that isn't right ends the sink.
The key of a table with REPLICA IDENTITY FULL, or another index, is the primary key that the follower of the store has seen, the store beside
the feed, or that of --store. Where it isn't known a new table has that of its identity, and one that is there its own. Rows with equal values
or null in it are no hashes: then the table is removed and left out, until a TRUNCATE, or `pgsub-connect add`, begins it anew. The sentinels
of redis+sentinel:// (port 26379) are asked at each connection, without a login, for the master of a service, which the URL's login is for.

A stream's entry has `op` (c, u, d, t; r of a row of the export, x of a change that found no row), `oid`, and the rows `before` and `after`
as objects; a message has them too, and `end`, where its commit ends, `n`, `schema` and `table`.
Logical messages have the `op` m, `lsn`, `prefix` and `content`, whichever tables are named: as entries of the stream `pgsub:message`, with the
content's bytes, under the subject STREAM.message, and in the topic PREFIX.message; hashes pass over them.

NATS: subjects are STREAM.schema.table, and STREAM.commit for the last message of each commit. A commit of which a part was published is
completed. --table goes by the names that tables have just then. With --reader, an LSN counts after 150 seconds, once the server has synced
it.

Kafka: topics are PREFIX.schema.table, the keys of messages those of rows, with Java's partitions (murmur2); tables without a key are in
partition 0, a TRUNCATE in each. All replicas in sync have a message before the position moves, the last message of PREFIX.position. What is
sent again after a kill has the same headers pgsub.lsn, pgsub.n and pgsub.part: pass over a message whose three numbers aren't above all
that its partition had before. A topic that gets more partitions has keys in two of them. A sink waits while another one of this host writes
the feed to the same topics, and ends with 7 where --once is said; nothing tells it of one on another host. --kafka-config has properties of
librdkafka, as security.protocol and sasl.username. In the URL `?config=FILE` does the same, `&schemas=true` and `&topic.prefix=shop` what
--schemas and --debezium do.
"""
ENDS = """\
exit status: 0 ended as asked; 1 a change is larger than the engine takes; 2 usage error; 3 a file can't be used; 4 the engine rejected a
command for good; 5 the feed lacks commits after those that are written, or another sink has begun, or something else has written what the
sink keeps; 6 a bug; 7 something is in the way only for now, as a feed that its follower hasn't begun, or with --once an engine that isn't there: start it again
"""


def stream_name(text: str) -> str:
    if not text or not all(it.isascii() and (it.isalnum() or it in "-_") for it in text):
        raise no(text, "name of a stream: letters, digits, - and _")
    return text


@dataclasses.dataclass(frozen=True)
class Options(FollowingOptions):
    """Which feed is followed, into which engine, and up to where."""

    url: str = option(
        f"where to write: {FORMS} (default: {ENVIRONMENT} of the environment)",
        "",
        nargs="?",
        type=urls.url,
        default="",
        word="URL",
    )
    url_file: str | None = file("a file whose first line is the URL, for one with a password")
    form: str | None = option(
        "what Redis gets (default: hashes, which leave out tables without a key)",
        choices=("hashes", "streams"),
        word="--as",
    )
    stream: str | None = option(
        "the stream of JetStream, made where it isn't there (default: pgsub)",
        type=stream_name,
        value="NAME",
    )
    replicas: int | None = option(
        "how many servers of NATS have the stream, where it isn't there (default: 1)",
        type=within(1, 5),
    )
    kafka_config: str | None = file(
        "properties of librdkafka for Kafka, a line NAME=VALUE each: TLS, logins"
    )
    debezium: Sequence[str] = option(f"for Kafka: {DEBEZIUM}", (), value="NAME=VALUE")
    schemas: bool = flag(f"for Kafka: {SCHEMAS}")
    until: int | None = option("end before the first commit above this LSN", type=lsn)


def add_options(parser: argparse.ArgumentParser) -> None:
    add_fields(parser.add_argument, Options)
    base = "made by `export --text`, where nothing is kept there yet"
    add_following(parser, base, "the engine's disk", "written")


def check_options(parser: argparse.ArgumentParser, options: Options) -> Options:
    """Rejects options that don't go together."""
    if options.url and options.url_file:
        parser.error("either a URL or --url-file is needed")
    if not (options.url or options.url_file or os.environ.get(ENVIRONMENT)):
        parser.error(f"a URL is needed, or --url-file, or {ENVIRONMENT} in the environment")
    return options


def settled(options: Options) -> Options:
    check_texts(each("--table", options.table))
    use_mode(options.mode)
    return options


def engine_of(
    options: Options, check: Check, writer: Writer, alone: Alone, known: KnownTables | None
) -> Engine:
    kind = scheme(options.url)
    if kind == "kafka":
        if options.form or options.stream or options.replicas:
            raise UsageError("--as is for Redis, --stream and --replicas for NATS")
        words, types = options.debezium, FeedTypes(options.feed, check)
        about = options.url, options.kafka_config, words, options.schemas
        return kafka_engine.connect(*about, known, types, check, alone)
    if options.kafka_config or options.debezium or options.schemas:
        raise UsageError("--kafka-config, --debezium and --schemas are for Kafka")
    if kind == "nats":
        if options.form:
            raise UsageError("--as is for Redis")
        stream, replicas = options.stream or nats_engine.STREAM, options.replicas or 1
        return nats_engine.connect(options.url, stream, replicas, check)
    if options.stream or options.replicas:
        raise UsageError("--stream and --replicas are for NATS")
    calls = redis_calls.connected(options.url, check)
    if options.form == "streams":
        return Redis(calls, Streams(calls), check, writer)
    return Redis(calls, Hashes(calls), check, writer, known)


def with_url(options: Options) -> Options:
    """The options with the URL of a file, which is warned of where others may read it."""
    if options.url_file:
        with open(options.url_file, encoding="utf-8") as file:
            found, readable = file.readline().strip(), readable_by(file.fileno())
        options = dataclasses.replace(options, url=found)
        if readable and "@" in found:
            log.warning(readable_text(options.url_file or "", readable))
        if not scheme(found):
            text = f"{options.url_file}: its first line is no URL as redis://.., nats://.. or kafka://.."
            raise UsageError(text)
    elif not options.url:
        options = dataclasses.replace(options, url=os.environ.get(ENVIRONMENT, ""))
        if not scheme(options.url):
            raise UsageError(f"{ENVIRONMENT} is no URL as redis://.., nats://.. or kafka://..")
    elif "@" in options.url:
        log.warning("the password on the command line can be read by every account: use --url-file")
    return options


def run(options: Options, check: Check) -> int:
    options, writer = with_url(options), Writer()
    parent = options.parent(check)
    check = parent.check if parent else check
    reading = options.reading(sorted(set(options.table)), options.until)
    check_feed(options.feed)
    known = known_beside(options.feed, options.store)
    with contextlib.closing(Alone(options.feed, options.mode)) as alone:
        keep(reading, lambda: engine_of(options, check, writer, alone, known), check, parent)
    return 0


def check_feed(folder: str) -> None:
    """Rejects what is no folder of a feed, wherever the engine is. One that isn't there yet may be
    once its follower is started, so a later start may do."""
    try:
        segments(folder)
    except NoFeed as error:
        raise Passing(str(error)) from None
