"""Ways to a server: TCP, passwords, TLS, roles with few rights."""

from __future__ import annotations

import shutil
import socket
import subprocess

from ..cluster import Cluster
from ..errors import Failed, Unusable
from ..place import SERVER, Place
from .case import Case

PASSWORD = "geheim und lang"
ENVIRONMENT = {"PGPASSWORD": PASSWORD}


def free_port() -> int:
    with socket.socket() as it:
        it.bind(("127.0.0.1", 0))
        port: int = it.getsockname()[1]
        return port


def with_certificate(cluster: Cluster) -> None:
    """Gives a server a certificate for `localhost` that it has signed itself."""
    if not shutil.which("openssl"):
        raise Unusable("openssl is needed: apt-get install openssl")
    certificate, key = cluster.data / "server.crt", cluster.data / "server.key"
    subprocess.run(
        [
            "openssl",
            "req",
            "-new",
            "-x509",
            "-days",
            "2",
            "-nodes",
            "-subj",
            "/CN=localhost",
            "-addext",
            "subjectAltName=DNS:localhost",
            "-newkey",
            "rsa:2048",
            "-keyout",
            str(key),
            "-out",
            str(certificate),
        ],
        check=True,
        capture_output=True,
    )
    key.chmod(0o600)
    for it in (certificate, key):
        if cluster.installed.account:
            shutil.chown(it, cluster.installed.account.uid, cluster.installed.account.gid)
    cluster.configure({"ssl": "on"})


def reached_by_tcp(place: Place, address: str, host: str) -> Cluster:
    """A server with a table that belongs to the role `follower`, which has to give a password."""
    port = free_port()
    cluster = place.own_cluster(
        {"listen_addresses": address, "port": str(port), "password_encryption": "scram-sha-256"}
    )
    cluster.port = port
    lines = f"local all {cluster.user} trust\n{host} all follower 127.0.0.0/8 scram-sha-256\n"
    (cluster.data / "pg_hba.conf").write_text(lines)
    if host == "hostssl":
        with_certificate(cluster)
    cluster.start()
    role = f"CREATE ROLE follower LOGIN REPLICATION PASSWORD '{PASSWORD}'"
    cluster.run(role, "CREATE DATABASE shop OWNER follower", database="postgres")
    place.run(
        "CREATE TABLE stock (sku int PRIMARY KEY, quantity int, note text)",
        "ALTER TABLE stock OWNER TO follower",
        # (above what one record of TLS holds)
        "INSERT INTO stock SELECT it, it, (SELECT string_agg(md5(it::text || at), '') FROM generate_series(1, 800) at)"
        " FROM generate_series(1, 60) it",
    )
    return cluster


def dsn_of(cluster: Cluster, address: str, more: str) -> str:
    return f"hostaddr={address} port={cluster.port} user=follower dbname=shop {more}"


def tls(place: Place) -> None:
    """Copies and follows over TCP with TLS and a password, as a role that is no superuser; `check`
    finds nothing wrong."""
    cluster = reached_by_tcp(place, "127.0.0.1", "hostssl")
    trusted = place.folder / "root.crt"
    shutil.copy(cluster.data / "server.crt", trusted)
    dsn = dsn_of(
        cluster,
        "127.0.0.1",
        f"host=localhost sslmode=verify-full sslrootcert={trusted} channel_binding=require",
    )
    words = [str(place.options.connect), "check", "--dsn", dsn, "--table", "stock"]
    said = place.has_ended(place.started(words, ENVIRONMENT), 0, "ok tls: in use")
    if "error " in said:
        raise Failed(said)
    child = place.start("--create", "--table", "stock", dsn=dsn, environment=ENVIRONMENT)
    place.catch_up(child)
    for _ in range(3):
        place.run("UPDATE stock SET quantity = quantity + 1, note = note || '.'")
        place.catch_up(child)
    plain = place.value(
        "SELECT count(*) FROM pg_stat_ssl JOIN pg_stat_replication USING (pid) WHERE NOT ssl"
    )
    child.stop()
    if plain != "0":
        raise Failed("a connection isn't encrypted")
    place.equal()


def wrong_password(place: Place) -> None:
    """Ends for good where the server rejects the password, and says so without showing it."""
    cluster = reached_by_tcp(place, "127.0.0.1", "host")
    dsn = dsn_of(cluster, "127.0.0.1", "")
    for password in ("not this one", ""):
        child = place.start(
            "--create",
            "--table",
            "stock",
            dsn=dsn,
            environment={"PGPASSWORD": password} if password else {},
        )
        said = place.has_ended(child, SERVER, "password")
        if "not this one" in said:
            raise Failed(said)
    file = place.folder / "dsn"
    file.write_text(f"{dsn} password='{PASSWORD}'\n")
    words = [
        it
        for it in place.words("--create", "--table", "stock", "--dsn-file", str(file))
        if it != place.dsn()
    ]
    words.remove("--dsn")
    child = place.started(words)
    place.catch_up(child)
    said = child.stop()
    if "command line" in said or PASSWORD in said:
        raise Failed(f"a password in a file is no fault: {said}")
    place.equal()


def shown_password(place: Place) -> None:
    """Warns of a password on the command line."""
    cluster = reached_by_tcp(place, "127.0.0.1", "host")
    child = place.start(
        "--create", "--table", "stock", dsn=dsn_of(cluster, "127.0.0.1", f"password='{PASSWORD}'")
    )
    child.wait_for("the password on the command line can be read by every account")
    place.catch_up(child)
    if PASSWORD in child.stop():
        raise Failed("it shows the password")
    place.equal()


def plain_text(place: Place) -> None:
    """Plain text to another machine has to be named, and is warned of. (0.0.0.0 isn't known as an
    address of this one.)"""
    cluster = reached_by_tcp(place, "127.0.0.1", "host")
    dsn = dsn_of(cluster, "0.0.0.0", "host=0.0.0.0")
    child = place.start("--create", "--table", "stock", dsn=dsn, environment=ENVIRONMENT)
    place.has_ended(child, SERVER, "sslmode=prefer or sslmode=disable in the connection string")
    dsn += " sslmode=prefer"
    child = place.start("--create", "--table", "stock", dsn=dsn, environment=ENVIRONMENT)
    child.wait_for("the connection isn't encrypted")
    place.catch_up(child)
    child.stop()
    place.equal()


def rights(place: Place) -> None:
    """Names the right that a role lacks, leaves nothing at the server, and copies once it has the
    right."""
    place.own_server()
    place.stock()
    place.run("CREATE ROLE follower LOGIN")
    dsn = place.cluster.dsn(user="follower")
    (place.cluster.data / "pg_hba.conf").write_text("local all all trust\n")
    place.ends(SERVER, "to start", "--create", dsn=dsn)
    checked = place.started([str(place.options.connect), "check", "--dsn", dsn])
    checked.end()
    if "error role: follower lacks REPLICATION" not in checked.said():
        raise Failed(f"check doesn't tell what is missing: {checked.said()}")
    place.run("ALTER ROLE follower REPLICATION")
    place.ends(SERVER, "lacks SELECT on: public.stock", "--create", dsn=dsn)
    if place.value("SELECT count(*) FROM pg_replication_slots") != "0" or place.files():
        raise Failed("a slot or a store is left")
    place.run("ALTER TABLE stock ENABLE ROW LEVEL SECURITY", "GRANT SELECT ON stock TO follower")
    place.ends(SERVER, "policies hide rows", "--create", dsn=dsn)
    place.run("ALTER TABLE stock DISABLE ROW LEVEL SECURITY")
    place.follow("--create", dsn=dsn)
    place.equal()


CASES = (
    Case("tls-and-a-password", tls),
    Case("wrong-password", wrong_password),
    Case("password-on-the-command-line", shown_password),
    Case("connection-in-plain-text", plain_text),
    Case("role-that-lacks-rights", rights),
)
