"""The socket of a follower: who may connect and ask, and what hostile programs at the other end
can't do."""

from __future__ import annotations

import contextlib
import json
import os
import select
import socket
import stat
import subprocess
import sys
import time
import unittest
from collections.abc import Callable
from unittest import mock

from pgsub_connect.follow import request_socket as requests_module
from pgsub_connect.follow.request_socket import MOST, OTHERS, SHORT, UNTAKEN, RequestSocket
from pgsub_connect.store import socket_file
from pgsub_connect.store.socket_file import LONGEST, Asking, connected, listening
from pgsub_feed.errors import FileError, Passing
from pgsub_feed.interruption import never

from .asking import Asker, asking
from .fake_server import Quiet

TOP = os.path.dirname(os.path.dirname(os.path.abspath(__file__)))
# Asks as another account, and prints what was answered, or why nothing was.
OTHER = """
import os, sys
sys.path.insert(0, sys.argv[1])
os.setgid(int(sys.argv[4])); os.setgroups([]); os.setuid(65534)
from pgsub_connect.store.socket_file import Asking
from pgsub_connect.server.connection import never
try:
    asking = Asking(sys.argv[2], never)
    asking.say(ask=sys.argv[3], lsn="0/1", tables="x", into="x")
    print(asking.answer(60.0))
except Exception as error:
    print(type(error).__name__, error)
"""


class Case(Quiet):
    def setUp(self) -> None:
        super().setUp()
        self.folder = self.make_folder()
        self.store = self.folder + "/copy.db"
        open(self.store, "w").close()

    def patch(self, name: str, by: object) -> None:
        patch = mock.patch.object(requests_module, name, by)
        patch.start()
        self.addCleanup(patch.stop)

    def begun(self, mode: int = 0o600) -> RequestSocket:
        requests = RequestSocket(self.store, mode)
        self.addCleanup(requests.close)
        return requests


class Files(Case):
    """The socket's file."""

    def mode(self) -> int:
        return stat.S_IMODE(os.stat(self.store + ".sock").st_mode)

    def test_its_mode(self) -> None:
        """Whoever may read the store may connect, whatever the umask."""
        for mode, wanted in ((0o600, 0o600), (0o640, 0o660), (0o644, 0o666), (0o660, 0o660)):
            before = os.umask(0o077)
            try:
                with contextlib.closing(RequestSocket(self.store, mode)):
                    self.assertEqual(self.mode(), wanted)
            finally:
                os.umask(before)

    def test_a_file_that_was_left(self) -> None:
        """It is replaced, and what a link leads to stays."""
        other = self.folder + "/other"
        leaves: tuple[Callable[[str], object], ...] = (
            lambda path: listening(self.store, 0o600).close(),
            lambda path: open(path, "w").close(),
            lambda path: os.symlink(other, path),
        )
        for leave in leaves:
            open(other, "w").close()
            leave(self.store + ".sock")
            requests = RequestSocket(self.store)
            with asking(self.store, ask="copy", into="x"):
                requests.tend()
                self.assertIsNotNone(requests.first())
            requests.close()
            self.assertEqual(sorted(os.listdir(self.folder)), ["copy.db", "other"])

    def test_where_it_cant_be_made(self) -> None:
        os.mkdir(self.store + ".sock")
        with self.assertRaisesRegex(FileError, "copy.db.sock: Is a directory"):
            RequestSocket(self.store)
        self.assertEqual(sorted(os.listdir(self.folder)), ["copy.db", "copy.db.sock"])
        with self.assertRaisesRegex(FileError, "No such file"):
            RequestSocket(self.folder + "/none/copy.db")

    def test_a_store_that_lies_deep(self) -> None:
        """An address has 107 bytes, and a file's name may have 255."""
        deep = self.folder + "/" + "/".join(["folder" * 20] * 5)
        os.makedirs(deep)
        self.store = f"{deep}/{'s' * 240}"
        open(self.store, "w").close()
        requests = self.begun()
        with asking(self.store, ask="copy", into="x"):
            requests.tend()
            self.assertIsNotNone(requests.first())

    def test_a_relative_name(self) -> None:
        before = os.getcwd()
        self.addCleanup(os.chdir, before)
        os.chdir(self.folder)
        self.store = "copy.db"
        with contextlib.closing(RequestSocket("copy.db")) as requests, asking(
            "copy.db", ask="copy"
        ):
            requests.tend()
            self.assertIsNotNone(requests.first())
            self.assertEqual(sorted(os.listdir(".")), ["copy.db", "copy.db.sock"])

    def test_what_is_no_socket(self) -> None:
        path = self.store + ".sock"
        open(path, "w").close()
        with self.assertRaisesRegex(FileError, "not a socket"):
            connected(self.store)
        os.unlink(path)
        with socket.socket(socket.AF_UNIX) as other:
            other.bind(self.folder + "/other")
            other.listen()
            os.symlink(self.folder + "/other", path)
            with self.assertRaisesRegex(FileError, "not a socket"):
                connected(self.store)
        os.unlink(path)
        self.assertRaises(FileNotFoundError, connected, self.store)

    def test_another_account_answers(self) -> None:
        """As where somebody else may write the store's folder."""
        requests = self.begun()
        with mock.patch.object(socket_file, "account_of", lambda _: 4711):
            with self.assertRaisesRegex(FileError, "another account .4711. answers there"):
                connected(self.store)
        requests.tend()


class Accounts(Case):
    def ask(self, requests: RequestSocket, kind: str, group: int = 65534) -> str:
        """What another account is answered, which asks this."""
        child = subprocess.Popen(
            [sys.executable, "-c", OTHER, TOP, self.store, kind, str(group)],
            stdout=subprocess.PIPE,
            cwd="/",
        )
        while child.poll() is None:
            requests.rest(0.05)
            requests.tend()
            for client in requests.those_waiting():
                client.end(reached="0/5")
        assert child.stdout
        said = child.stdout.read().decode()
        child.stdout.close()
        return said

    @unittest.skipIf(os.geteuid() != 0, "another account takes root")
    def test_another_account(self) -> None:
        """It may wait, where it may connect, and nothing else."""
        os.chmod(self.folder, 0o755)
        requests = RequestSocket(self.store, 0o644)
        for kind in ("copy", "hold", "add"):
            self.assertIn("root and the account of the follower", self.ask(requests, kind))
        self.assertIsNone(requests.first())
        self.assertEqual(self.ask(requests, "wait"), "{'reached': '0/5'}\n")
        requests.close()
        for mode, group, wanted in (
            (0o600, 65534, "PermissionError"),
            (0o640, 65534, "PermissionError"),
            (0o640, 0, "{'reached': '0/5'}"),
        ):
            requests = RequestSocket(self.store, mode)
            self.assertIn(wanted, self.ask(requests, "wait", group))
            requests.close()

    def test_the_kernel_says_who_asks(self) -> None:
        requests = self.begun()
        for uid, may in ((0, True), (os.geteuid(), True), (4711, False)):
            with mock.patch.object(requests_module, "account_of", lambda _, uid=uid: uid):
                with asking(self.store, ask="copy", into="x") as asker:
                    requests.tend()
                    self.assertEqual(requests.first() is not None, may)
                    if not may:
                        self.assertIn("others may wait", asker.error())
            requests.tend()


class Hostile(Case):
    """Programs that say what no connector says. The main loop goes on, and others are answered."""

    def setUp(self) -> None:
        super().setUp()
        self.requests = self.begun()
        self.began = time.monotonic()

    def tearDown(self) -> None:
        """Whatever was said, another one is answered at once."""
        self.requests.tend()
        with asking(self.store, ask="wait", lsn="0/1") as asker:
            for _ in range(3):
                self.requests.tend()
            self.assertEqual(len(list(self.requests.those_waiting())), 1)
            for client in self.requests.those_waiting():
                client.end(reached="0/1")
            self.assertEqual(asker.heard(), [{"reached": "0/1"}])
        self.requests.tend()
        self.assertEqual(self.requests.waiting, [])
        self.assertLess(time.monotonic() - self.began, 60)
        super().tearDown()

    def refused(self, said: bytes) -> str:
        """What is answered to that."""
        with contextlib.closing(Asker(self.store)) as asker:
            left = memoryview(said)
            while left:
                with contextlib.suppress(BlockingIOError, BrokenPipeError):
                    left = left[asker.socket.send(left) :]
                    continue
                self.requests.tend()
                if asker.heard():
                    break
            self.requests.tend()
            self.requests.tend()
            answers = asker.heard()
            self.assertTrue(asker.is_over or not left)
        self.requests.tend()
        return json.dumps(answers)

    def test_what_is_no_request(self) -> None:
        for said in (
            b"\n",
            b"{}\n",
            b"[]\n",
            b"5\n",
            b"null\n",
            b"\xff\xfe\n",
            b"\0" * 50 + b"\n",
            b'{"ask": 5}\n',
            b'{"ask": null}\n',
            b'{"ask": ["copy"]}\n',
            b'{"ask": "drop"}\n',
            b'{"ask": "copy"\n',
            b"[" * 100000 + b"\n",
            b'{"ask": 1e999}\n',
        ):
            self.assertIn("error", self.refused(said), said[:50])
        self.assertIsNone(self.requests.first())

    def test_a_line_without_an_end(self) -> None:
        self.refused(b"x" * (LONGEST + (1 << 17)))
        self.assertIsNone(self.requests.first())
        self.assertEqual(self.requests.clients, {})

    def test_a_line_without_an_end_of_another_account(self) -> None:
        with mock.patch.object(requests_module, "account_of", lambda _: 4711):
            self.assertIn("can't be read", self.refused(b"x" * (SHORT + 1)))
        self.assertEqual(self.requests.clients, {})

    def test_endless_lines(self) -> None:
        line = b'{"ask": "hold"}\n'
        said = self.refused(line * 100000)
        self.assertEqual(self.requests.clients, {})
        self.assertTrue("too much" in said or said == "[]", said)

    def test_lines_of_one_who_waits(self) -> None:
        said = self.refused(b'{"ask": "wait"}\n' + b"{}\n" * (UNTAKEN + 1))
        self.assertIn("too much was said", said)

    def test_one_who_is_silent(self) -> None:
        self.patch("SILENT", 0.0)
        with contextlib.closing(Asker(self.store)) as asker:
            self.requests.tend()
            time.sleep(0.01)
            self.requests.tend()
            self.assertEqual(asker.error(), "nothing was asked")

    def test_one_who_reads_nothing(self) -> None:
        """No answer is waited for."""
        with asking(self.store, ask="copy", into="x"):
            self.requests.tend()
            client = self.requests.first()
            assert client
            for _ in range(10000):
                client.answer(error="x" * 1000)
            self.assertTrue(client.is_gone)

    def test_thousands_of_connections(self) -> None:
        """Those of other accounts leave room for the others."""
        with contextlib.ExitStack() as stack, mock.patch.object(
            requests_module, "account_of", lambda _: 4711
        ):
            for _ in range(2000):
                with contextlib.suppress(BlockingIOError):
                    asker = Asker(self.store)
                    stack.callback(asker.close)
                self.requests.tend()
                self.assertLessEqual(len(self.requests.clients), OTHERS)
            self.requests.tend()
            with mock.patch.object(requests_module, "account_of", lambda _: 0), asking(
                self.store, ask="copy", into="x"
            ):
                self.requests.tend()
                self.assertIsNotNone(self.requests.first())

    def test_more_connections_than_there_may_be(self) -> None:
        with contextlib.ExitStack() as stack:
            askers = [stack.enter_context(contextlib.closing(Asker(self.store))) for _ in range(99)]
            for _ in range(20):
                self.requests.tend()
            self.assertEqual(len(self.requests.clients), MOST)
            self.assertIn("too many ask", askers[-1].error())
            self.assertEqual(askers[0].heard(), [])

    def test_a_system_without_room(self) -> None:
        """It is tried again later, and meanwhile there is nothing to do."""
        self.patch("AGAIN", 0.05)
        real = self.requests.listening
        self.addCleanup(setattr, self.requests, "listening", real)
        full = mock.Mock(wraps=real)
        full.accept.side_effect = OSError(24, "Too many open files")
        full.fileno.side_effect = real.fileno
        with asking(self.store, ask="copy", into="x"):
            self.requests.listening = full
            self.requests.tend()
            self.assertEqual(select.select([self.requests], [], [], 0)[0], [])
            self.requests.listening = real
            time.sleep(0.06)
            self.requests.tend()
            self.assertIsNotNone(self.requests.first())

    def test_a_connection_that_comes_and_goes(self) -> None:
        for _ in range(500):
            Asker(self.store).close()
            self.requests.tend()
        self.assertEqual(self.requests.clients, {})


class Woken(Case):
    def test_a_thread_or_a_signal(self) -> None:
        requests = self.begun()
        self.assertEqual(select.select([requests], [], [], 0)[0], [])
        for _ in range(100000):
            requests.wake()
        self.assertEqual(select.select([requests], [], [], 0)[0], [requests])
        requests.tend()
        self.assertEqual(select.select([requests], [], [], 0)[0], [])


class Answers(Case):
    """Followers that answer what none answers."""

    def answered(self, said: bytes) -> object:
        listener = listening(self.store, 0o600)
        with contextlib.closing(listener), contextlib.closing(Asking(self.store, never)) as it:
            made, _ = listener.accept()
            it.say(ask="copy")
            made.send(said)
            made.close()
            return it.answer(60.0)

    def test_what_is_no_answer(self) -> None:
        for said in (b"x\n", b"[]\n", b"\xff\n", b"[" * 100000 + b"\n"):
            with self.assertRaisesRegex(FileError, "copy.db.sock: an answer can't be read"):
                self.answered(said)

    def test_an_answer_that_was_cut(self) -> None:
        self.assertIsNone(self.answered(b'{"copied": "0'))
        self.assertIsNone(self.answered(b""))

    def test_none(self) -> None:
        requests = self.begun()
        with contextlib.closing(Asking(self.store, never)) as it:
            it.say(ask="copy")
            with self.assertRaisesRegex(Passing, "hasn't answered in 0 seconds"):
                it.answer(0.02)
        requests.tend()


if __name__ == "__main__":
    unittest.main()
