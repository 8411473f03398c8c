"""Somebody on the way who has TLS at first, and takes it away."""

from __future__ import annotations

import contextlib
import socket
import ssl
import struct
import subprocess
import tempfile
import threading
from collections.abc import Iterator
from pathlib import Path

from .errors import Failed
from .modes import SECONDS, Stage

WANTS_TLS = 80877103
# The status with which the connector ends where TLS is gone.
UNFIT = 5


def make_certificate(folder: Path) -> ssl.SSLContext:
    """What a server has TLS by: a certificate that it has signed itself."""
    key, certificate = str(folder / "key"), str(folder / "certificate")
    words = ["openssl", "req", "-x509", "-newkey", "ec", "-pkeyopt", "ec_paramgen_curve:prime256v1"]
    words += ["-nodes", "-days", "2", "-subj", "/CN=liar", "-keyout", key, "-out", certificate]
    subprocess.run(words, check=True, capture_output=True)
    context = ssl.SSLContext(ssl.PROTOCOL_TLS_SERVER)
    context.load_cert_chain(certificate, key)
    return context


class Stripper:
    """A proxy at a port of this machine. `plain`: how many logged in without TLS."""

    def __init__(self, server: Path, context: ssl.SSLContext) -> None:
        self.server, self.context = server, context
        self.has_tls, self.plain = True, 0
        self.listener = socket.create_server(("127.0.0.1", 0))
        self.port: int = self.listener.getsockname()[1]
        threading.Thread(target=self.accept, daemon=True).start()

    def close(self) -> None:
        self.listener.close()

    def accept(self) -> None:
        with contextlib.suppress(OSError):
            while True:
                client, _ = self.listener.accept()
                threading.Thread(target=self.serve, args=(client,), daemon=True).start()

    def serve(self, client: socket.socket) -> None:
        """Answers the wish for TLS, and passes on what follows."""
        with contextlib.suppress(OSError), socket.socket(socket.AF_UNIX) as server:
            first = client.recv(8)
            if len(first) == 8 and struct.unpack(">ii", first)[1] == WANTS_TLS:
                client.sendall(b"S" if self.has_tls else b"N")
                if self.has_tls:
                    client = self.context.wrap_socket(client, server_side=True)
                first = client.recv(1 << 16)
            self.plain += bool(first) and not self.has_tls
            server.connect(str(self.server))
            server.sendall(first)
            threading.Thread(target=self.pass_on, args=(server, client), daemon=True).start()
            self.pass_on(client, server)

    def pass_on(self, source: socket.socket, to: socket.socket) -> None:
        with contextlib.suppress(OSError):
            while piece := source.recv(1 << 16):
                to.sendall(piece)
        for it in (source, to):
            with contextlib.suppress(OSError):
                it.shutdown(socket.SHUT_RDWR)


@contextlib.contextmanager
def stripper(stage: Stage) -> Iterator[Stripper]:
    made = Stripper(stage.socket, make_certificate(stage.folder))
    try:
        yield made
    finally:
        made.close()


def run(stage: Stage) -> str:
    """Copies and follows with TLS, and then without: the connector has to end, and to log in
    never."""
    with tempfile.TemporaryDirectory(prefix="run-", dir=stage.folder.parent) as folder:
        stage.folder = Path(folder)
        try:
            with stripper(stage) as between:
                return stripped(stage, between)
        finally:
            stage.clean()


def stripped(stage: Stage, between: Stripper) -> str:
    dsn = f"host=127.0.0.1 port={between.port} dbname={stage.database} user={stage.user}"
    words = stage.following(f"{dsn} sslmode=prefer", "--until", "now")
    create = ["--create", "--table", "stock"]
    for status in (0, 0, UNFIT, UNFIT):
        between.has_tls = status == 0
        done = subprocess.run(
            [*words, *create], capture_output=True, stdin=subprocess.DEVNULL, timeout=SECONDS
        )
        said = done.stderr.decode(errors="replace")
        if done.returncode != status or (status and "--accept plaintext" not in said):
            raise Failed(f"status {done.returncode} in place of {status}: {said}")
        if between.plain:
            raise Failed(f"it has logged in without TLS: {said}")
    return "no login without TLS"
