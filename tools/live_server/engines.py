"""Engines that sinks write to: a Redis and a NATS server of a test's own, on a free port of this
machine, and what they have."""

from __future__ import annotations

import abc
import base64
import contextlib
import importlib
import json
import shutil
import signal
import socket
import subprocess
import time
from collections.abc import Iterator
from pathlib import Path
from typing import Any

from .errors import Failed, Unusable
from .patience import Patience

PATIENCE = 20.0


def free_port() -> int:
    with socket.socket() as found:
        found.bind(("127.0.0.1", 0))
        return int(found.getsockname()[1])


class Engine(abc.ABC):
    """A server in a folder."""

    program = package = ""

    def __init__(self, folder: Path) -> None:
        self.folder, self.port = folder, free_port()
        self.folder.mkdir(parents=True, exist_ok=True)
        self.process: subprocess.Popen[bytes] | None = None
        if shutil.which(self.program) is None:
            raise Unusable(f"{self.program} is needed: apt-get install {self.package}")

    @abc.abstractmethod
    def words(self) -> list[str]:
        """How it is started."""

    @abc.abstractmethod
    def url(self) -> str:
        """Where it is."""

    def start(self) -> None:
        with open(self.folder / "said", "ab") as said:
            self.process = subprocess.Popen(
                self.words(), stdout=said, stderr=said, stdin=subprocess.DEVNULL, cwd=self.folder
            )
        self.wait()

    def wait(self) -> None:
        end = time.monotonic() + PATIENCE * Patience.factor
        while time.monotonic() < end:
            with contextlib.suppress(OSError), socket.create_connection(
                ("127.0.0.1", self.port), 1
            ):
                return
            time.sleep(0.02)
        raise Failed(f"{self.program} didn't start: {(self.folder / 'said').read_text()}")

    def kill(self, number: int = signal.SIGKILL) -> None:
        if self.process:
            self.process.send_signal(number)
            self.process.wait(30)
            self.process = None

    def restart(self) -> None:
        """Kills it, and starts it again where it was."""
        self.kill()
        self.start()


class RedisServer(Engine):
    """It keeps a log of its commands, which it syncs each second, as it does when it isn't told
    otherwise; or copies of all."""

    program, package = "redis-server", "redis-server"

    def __init__(self, folder: Path, *more: str) -> None:
        super().__init__(folder)
        self.more = more or ("--appendonly", "yes")

    def words(self) -> list[str]:
        return [
            "redis-server",
            "--port",
            str(self.port),
            "--bind",
            "127.0.0.1",
            "--dir",
            str(self.folder),
            *self.more,
        ]

    def url(self) -> str:
        return f"redis://127.0.0.1:{self.port}/0"

    def client(self) -> Any:
        try:
            return importlib.import_module("redis").Redis(port=self.port, decode_responses=True)
        except ModuleNotFoundError:
            raise Unusable("python3-redis is needed: apt-get install python3-redis") from None

    def wait(self) -> None:
        super().wait()
        client = self.client()
        end = time.monotonic() + PATIENCE * Patience.factor
        while time.monotonic() < end:
            with contextlib.suppress(Exception):
                client.ping()
                return
            time.sleep(0.02)
        raise Failed("redis-server doesn't say anything")

    def at(self) -> str:
        """The LSN of the sink; "" where none is there yet."""
        return str(self.client().get("pgsub:lsn") or "")

    def role(self) -> str:
        return str(self.client().info("replication")["role"])

    def hashes(self) -> dict[str, dict[str, str]]:
        """All rows by their keys."""
        client = self.client()
        return {
            key: client.hgetall(key)
            for key in client.scan_iter(count=1000)
            if not key.startswith("pgsub:")
        }

    def entries(self) -> dict[str, list[tuple[str, dict[str, str]]]]:
        """The entries of each stream."""
        client = self.client()
        return {key: client.xrange(key) for key in client.scan_iter(count=1000, _type="stream")}


class Sentinel(Engine):
    """One that watches a Redis, and by itself has another one take its place."""

    program, package = "redis-server", "redis-server"

    def __init__(self, folder: Path, watched: RedisServer) -> None:
        super().__init__(folder)
        # (it rewrites the file)
        (folder / "config").write_text(
            f"port {self.port}\nbind 127.0.0.1\ndir {folder}\nsentinel monitor live 127.0.0.1 {watched.port} 1\n"
            "sentinel down-after-milliseconds live 500\nsentinel failover-timeout live 2000\n"
        )

    def words(self) -> list[str]:
        return ["redis-server", str(self.folder / "config"), "--sentinel"]

    def url(self) -> str:
        return f"redis+sentinel://127.0.0.1:{self.port}/live/0"

    def client(self) -> Any:
        return importlib.import_module("redis").Redis(port=self.port, decode_responses=True)

    def knows_replica(self) -> bool:
        return bool(self.client().sentinel_master("live")["num-slaves"])

    def names(self, redis: RedisServer) -> bool:
        """Whether that one is the master, and says so too."""
        _, port = self.client().sentinel_get_master_addr_by_name("live")
        return bool(port == redis.port and redis.role() == "master")


class NatsServer(Engine):
    """It has JetStream, in its folder."""

    program, package = "nats-server", "nats-server"

    def __init__(self, folder: Path, most: int = 1 << 20) -> None:
        super().__init__(folder)
        self.most = most

    def words(self) -> list[str]:
        config = self.folder / "config"
        config.write_text(self.config())
        return ["nats-server", "-c", str(config)]

    def config(self) -> str:
        return f'listen: "127.0.0.1:{self.port}"\njetstream {{ store_dir: "{self.folder}/js" }}\nmax_payload: {self.most}\n'

    def url(self) -> str:
        return f"nats://127.0.0.1:{self.port}"

    def wait(self) -> None:
        super().wait()
        end = time.monotonic() + PATIENCE * Patience.factor
        while time.monotonic() < end:
            with contextlib.suppress(OSError, Failed):
                self.ask("INFO")
                return
            time.sleep(0.05)
        raise Failed("nats-server has no JetStream")

    def ask(self, what: str, **body: Any) -> dict[str, Any]:
        with contextlib.closing(Asker(self.port)) as asker:
            return asker.ask(what, body)

    def at(self, stream: str = "pgsub") -> str:
        """The LSN of the last message, where it is that of a commit; "" else."""
        found = self.ask(f"STREAM.INFO.{stream}")
        last = found["state"]["last_seq"] if "state" in found else 0
        it = next(self.messages(stream, last), None) if last else None
        return it[1].partition(":")[0] if it and it[1].endswith(":commit") else ""

    def messages(self, stream: str = "pgsub", first: int = 1) -> Iterator[tuple[str, str, Any]]:
        """Each message of a stream from a sequence on: its subject, its id and what it says."""
        with contextlib.closing(Asker(self.port)) as asker:
            state = asker.ask(f"STREAM.INFO.{stream}", {})["state"]
            for sequence in range(max(first, state["first_seq"]), state["last_seq"] + 1):
                it = asker.ask(f"STREAM.MSG.GET.{stream}", {"seq": sequence})["message"]
                headers = base64.b64decode(it["hdrs"]).decode().split("\r\n")
                ids = [
                    line.partition(": ")[2] for line in headers if line.startswith("Nats-Msg-Id:")
                ]
                yield it["subject"], ids[0], json.loads(base64.b64decode(it["data"]))


class NatsMember(NatsServer):
    """One of the servers of a cluster. `routes`: the ports by which they know each other, its own
    first."""

    def __init__(self, folder: Path, routes: list[int]) -> None:
        super().__init__(folder)
        self.routes = routes

    def config(self) -> str:
        routes = ", ".join(f'"nats-route://127.0.0.1:{it}"' for it in self.routes[1:])
        listens = f'listen: "127.0.0.1:{self.routes[0]}"'
        cluster = f"cluster {{ name: live, {listens}, routes: [{routes}] }}"
        return f"server_name: server{self.port}\n{super().config()}{cluster}\n"

    def wait(self) -> None:
        # (there is no JetStream before most of them are there)
        Engine.wait(self)

    def has_leader(self) -> bool:
        with contextlib.suppress(OSError, Failed):
            return "error" not in self.ask("STREAM.NAMES")
        return False


def nats_cluster(folder: Path, count: int) -> list[NatsMember]:
    """The servers of a cluster."""
    ports = [free_port() for _ in range(count)]
    others = [[it, *(other for other in ports if other != it)] for it in ports]
    return [NatsMember(folder / str(at), it) for at, it in enumerate(others)]


class Asker:
    """Asks JetStream, by as much of the protocol as that needs, and nothing of the connector's."""

    def __init__(self, port: int) -> None:
        self.socket = socket.create_connection(("127.0.0.1", port), 5)
        self.socket.settimeout(10)
        self.file = self.socket.makefile("rb")
        self.file.readline()
        self.socket.sendall(b'CONNECT {"verbose":false}\r\nSUB answers 1\r\n')

    def ask(self, what: str, body: dict[str, Any]) -> dict[str, Any]:
        payload = json.dumps(body).encode()
        self.socket.sendall(
            f"PUB $JS.API.{what} answers {len(payload)}\r\n".encode() + payload + b"\r\n"
        )
        while line := self.file.readline():
            if line.startswith(b"PING"):
                self.socket.sendall(b"PONG\r\n")
            elif line.startswith(b"MSG"):
                found: dict[str, Any] = json.loads(self.file.read(int(line.split()[-1]) + 2))
                return found
        raise Failed("nats-server has ended the connection")

    def close(self) -> None:
        self.file.close()
        self.socket.close()
