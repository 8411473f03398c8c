"""TLS: what is verified of a server, and that it isn't lost without a word."""

from __future__ import annotations

import shutil

from ..errors import Failed
from ..place import UNFIT, Place
from .case import Case
from .reaching import ENVIRONMENT, dsn_of, reached_by_tcp, with_certificate


def checked(place: Place, dsn: str) -> str:
    """What `check` says of TLS."""
    words = [str(place.options.connect), "check", "--dsn", dsn, "--table", "stock"]
    child = place.started(words, ENVIRONMENT)
    child.end()
    return next((it for it in child.said().splitlines() if " tls: " in it), child.said())


def verified(place: Place) -> None:
    """`check`, the start and the status file tell what of the server is verified."""
    cluster = reached_by_tcp(place, "127.0.0.1", "hostssl")
    trusted, status = place.folder / "root.crt", place.folder / "status"
    shutil.copy(cluster.data / "server.crt", trusted)
    for more, level, text, shown in (
        ("", "warning", "verified: nothing", []),
        (f"sslmode=require sslrootcert={trusted}", "warning", "verified: authority", ["authority"]),
        (
            f"sslmode=verify-ca sslrootcert={trusted}",
            "warning",
            "verified: authority",
            ["authority"],
        ),
        ("channel_binding=require", "ok", "verified: channel binding", ["channel binding"]),
        (
            f"host=localhost sslmode=verify-full sslrootcert={trusted}",
            "ok",
            "verified: authority, name",
            ["authority", "name"],
        ),
    ):
        dsn = dsn_of(cluster, "0.0.0.0", more if "host=" in more else f"host=0.0.0.0 {more}")
        said = checked(place, dsn)
        if not said.startswith(f"{level} tls: in use, {text}"):
            raise Failed(f"{more}: {said}")
        child = place.start(
            "--create",
            "--table",
            "stock",
            "--status-file",
            str(status),
            dsn=dsn,
            environment=ENVIRONMENT,
        )
        place.catch_up(child)
        said, found = child.stop(), place.status(status)
        if ("warning: the connection is encrypted" in said) != (level == "warning") or found[
            "verified"
        ] != shown:
            raise Failed(f"{more}: {found}, and it says {said}")
        if found["encryption"] != "tls":
            raise Failed(f"{found}")


def stops(place: Place, dsn: str) -> None:
    """Expects that nothing of the connector goes on with this connection string."""
    place.has_ended(place.start(dsn=dsn, environment=ENVIRONMENT), UNFIT, "--accept plaintext")
    for command, *more in (["check"], ["add", "--table", "stock"], ["refresh"], ["drop"]):
        words = [command, "--dsn", dsn, "--store", str(place.store), *more]
        child = place.started([str(place.options.connect), *words], ENVIRONMENT)
        place.has_ended(child, UNFIT, "--accept plaintext")


def tls_taken_away(place: Place) -> None:
    """TLS is gone while it follows, and at the next starts: that ends it, until plain text is
    accepted."""
    cluster = reached_by_tcp(place, "127.0.0.1", "host")
    with_certificate(cluster)
    cluster.control("restart")
    dsn = dsn_of(cluster, "0.0.0.0", "host=0.0.0.0 sslmode=prefer")
    child = place.start("--create", "--table", "stock", dsn=dsn, environment=ENVIRONMENT)
    place.catch_up(child)
    cluster.configure({"ssl": "off", "log_connections": "on"})
    cluster.control("restart")
    place.has_ended(child, UNFIT, "--accept plaintext")
    for mode in ("sslmode=prefer", "sslmode=disable", ""):
        stops(place, dsn.replace("sslmode=prefer", mode))
    if "connection authorized: user=follower" in cluster.said():
        raise Failed("it has logged in in plain text")
    accepts = ["--accept", "plaintext"]
    words = ["check", "--dsn", dsn, "--store", str(place.store), *accepts]
    child = place.started([str(place.options.connect), *words], ENVIRONMENT)
    place.has_ended(child, 0, "warning tls: not in use")
    for is_first in (True, False):
        words = accepts if is_first else []
        child = place.start(*words, dsn=dsn, environment=ENVIRONMENT)
        place.catch_up(child)
        child.stop()
    place.equal()


CASES = (Case("what-tls-verifies", verified), Case("tls-taken-away", tls_taken_away))
