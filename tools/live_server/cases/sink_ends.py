"""Followers that end by themselves with their sinks, and what ends a sink by itself."""

from __future__ import annotations

import shutil
import subprocess
from pathlib import Path

from ..engines import NatsServer, RedisServer, free_port
from ..errors import Failed, Unusable
from ..follower import Supervisor, wait_until
from ..place import FILE, OK, SERVER, Place
from ..sinks import compare, compare_hashes, compare_messages, rows_of_server
from .case import Case
from .common import feed_of
from .sinking import a_feed, ends, has_reached, last_end, sink_words, started


def until_now(place: Place) -> None:
    """A follower that ends by itself has its sinks have all before, one whose engine is away too;
    and tells of one that has ended for good."""
    place.stock()
    redis, nats = RedisServer(place.folder / "redis"), NatsServer(place.folder / "nats")
    words = ["--feed-max-age", "1d", "--until", "now"]
    for it in (redis, nats):
        started(place, it)
        words += ["--sink", it.url()]
    place.ends(OK, "", "--create", *words)
    place.change()
    place.ends(OK, "", *words)
    equal(place, redis, nats)
    place.change()
    redis.kill()
    child = place.start(*words)
    wait_until(lambda: "not yet: that is waited for" in child.said(), "waiting", 60, child.check)
    redis.start()
    place.has_ended(child, OK, "")
    equal(place, redis, nats)
    redis.client().set("pgsub:lsn", "no LSN")
    place.change()
    place.ends(SERVER, "follows no more, as told above", *words)


def equal(place: Place, redis: RedisServer, nats: NatsServer) -> None:
    """Fails where an engine lacks a commit of the feed, or the server's rows."""
    end = last_end(feed_of(place))
    for it in (redis, nats):
        if not has_reached(it, end):
            raise Failed(f"{it.url()} isn't at {end:X}, where the feed ends")
    hashes, rows = rows_of_server(place.cluster, "pgsub")
    compare_hashes(redis, hashes)
    compare("rows of the messages", compare_messages(nats, feed_of(place))[0], rows)


def before_its_follower(place: Place) -> None:
    """A sink that is started before its follower is started again, as a service, until there is a
    feed."""
    place.stock()
    redis, feed = RedisServer(place.folder / "redis"), feed_of(place)
    started(place, redis)
    words = sink_words(place, redis, feed, "--store", str(place.store), "--reader", "sink")
    sink = Supervisor(words, place.folder / "sink.log")
    place.closing.callback(sink.kill)
    sink.begin()
    wait_until(lambda: sink.starts > 2, "starting it again", 30, sink.check)
    child = place.start("--create", "--feed", str(feed))
    place.catch_up(child)
    place.change()
    place.catch_up(child)
    end = last_end(feed)
    wait_until(lambda: has_reached(redis, end), "writing all", 60, sink.check)
    compare_hashes(redis, rows_of_server(place.cluster, "pgsub")[0])
    sink.finish()
    child.stop()


def certificates(place: Place) -> None:
    """A Redis whose certificate isn't right ends a sink, which waits for it else; so does one that
    wants a certificate of the sink's own."""
    a_feed(place)
    ours, theirs = (self_signed(place.folder / it, it) for it in ("localhost", "other.example"))
    for at, (name, clients) in enumerate(((ours, "no"), (theirs, "no"), (ours, "yes"))):
        port = free_port()
        redis = RedisServer(place.folder / f"redis{at}", *words_of(name, port, clients))
        started(place, redis)
        url = f"rediss://localhost:{port}/0"
        if at == 0:
            ends(place, redis, SERVER, "certificate verify failed", url=url)
            ends(place, redis, FILE, "isn't there", url=f"{url}?ssl_ca_certs=/none")
            ends(place, redis, OK, "all up to 0/200", url=f"{url}?ssl_ca_certs={name}.crt")
        elif at == 1:
            url = f"{url}?ssl_ca_certs={name}.crt"
            ends(place, redis, SERVER, "Hostname mismatch", url=url)
            ends(place, redis, OK, "all up to", url=f"{url}&ssl_check_hostname=False")
        else:
            url = f"{url}?ssl_ca_certs={name}.crt"
            words = sink_words(place, redis, place.folder / "feed")
            words[2] = url
            place.has_ended(place.started(words), SERVER, "certificate required")
            own = f"{url}&ssl_certfile={name}.crt&ssl_keyfile={name}.key"
            ends(place, redis, OK, "all up to 0/200", url=own)


def words_of(name: Path, port: int, clients: str) -> list[str]:
    """How a Redis is started that listens for TLS at another port, too."""
    words = ["--appendonly", "yes", "--tls-port", str(port), "--tls-auth-clients", clients]
    words += ["--tls-ca-cert-file", f"{name}.crt"]
    return [*words, "--tls-cert-file", f"{name}.crt", "--tls-key-file", f"{name}.key"]


def self_signed(path: Path, host: str) -> Path:
    """Makes a key and its certificate of a host, which nobody else has signed."""
    if not shutil.which("openssl"):
        raise Unusable("openssl is needed: apt-get install openssl")
    words = ["openssl", "req", "-x509", "-days", "2", "-nodes", "-newkey", "rsa:2048"]
    words += ["-subj", f"/CN={host}", "-addext", f"subjectAltName=DNS:{host}"]
    words += ["-keyout", f"{path}.key", "-out", f"{path}.crt"]
    subprocess.run(words, check=True, capture_output=True)
    return path


CASES = (
    Case("sinks-until", until_now),
    Case("sinks-before-their-follower", before_its_follower),
    Case("sinks-certificates", certificates),
)
