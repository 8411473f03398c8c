"""What a service manager is told: through a socket, as by systemd."""

from __future__ import annotations

import os
import select
import socket
import threading
import time
import unittest
from collections.abc import Callable
from unittest import mock

from pgsub_connect.errors import ServerError
from pgsub_connect.follow import filter_life, schedule
from pgsub_connect.follow.follower import Follower
from pgsub_connect.status.notify import LONGER, Notifier, notifier_of
from pgsub_connect.status.progress import ENDING, STATES, Progress
from pgsub_connect.stream import filter as filter_module
from pgsub_feed import files

from .test_copying import Copying
from .test_following import Case

# How many signs of life are waited for. Each wait is short in these tests, so they come within
# seconds; where the loop stands still between two of them not all come in the time of a test.
SIGNS = 100
ALIVE = ("WATCHDOG=1", f"EXTEND_TIMEOUT_USEC={LONGER * 1000000}")


class Manager:
    """Listens at a socket, and notes each line."""

    def __init__(self, address: str) -> None:
        self.address = address
        self.socket = socket.socket(socket.AF_UNIX, socket.SOCK_DGRAM)
        self.socket.bind("\0" + address[1:] if address.startswith("@") else address)
        self.told: list[str] = []
        self.ended = threading.Event()
        self.thread = threading.Thread(target=self.listen)
        self.thread.start()

    def listen(self) -> None:
        while not self.ended.is_set() or select.select([self.socket], [], [], 0)[0]:
            if select.select([self.socket], [], [], 0.02)[0]:
                self.told += self.socket.recv(1 << 16).decode().split("\n")

    def close(self) -> None:
        self.ended.set()
        self.thread.join()
        self.socket.close()

    def lines(self) -> list[str]:
        return list(self.told)


class Signs(Notifier):
    """Tells at each call that all is well, and notes what was told."""

    def __init__(self, address: str) -> None:
        super().__init__(address)
        self.interval = 0.0
        self.told: list[str] = []

    def beat(self, status: str) -> None:
        self.told.append(status)
        super().beat(status)

    def count(self, state: str = "") -> int:
        """How many there were in a state."""
        return sum(it.startswith(state) for it in list(self.told))


class Lines(unittest.TestCase):
    def manager(self, address: str) -> Manager:
        manager = Manager(address)
        self.addCleanup(manager.close)
        return manager

    def test_an_abstract_name_too(self) -> None:
        manager = self.manager(f"@pgsub-test-{os.getpid()}")
        notifier = Notifier(manager.address, 2.0)
        notifier.beat("connecting")
        notifier.ready()
        notifier.ready()
        notifier.beat("following")
        notifier.beat("following")
        notifier.stopping("stopping")
        notifier.stopping("stopped")
        manager.close()
        self.assertEqual(
            manager.lines(),
            [
                *(ALIVE[1], "STATUS=connecting", "READY=1", ALIVE[0], "STATUS=following", ALIVE[0]),
                *("STOPPING=1", "STATUS=stopping", "STATUS=stopped"),
            ],
        )

    def test_a_status_comes_again_until_it_is_taken(self) -> None:
        notifier = Notifier(f"@pgsub-test-later-{os.getpid()}")
        notifier.beat("following")
        manager = self.manager(f"@pgsub-test-later-{os.getpid()}")
        notifier.beat("following")
        notifier.beat("following")
        manager.close()
        self.assertEqual(manager.lines().count("STATUS=following"), 1)

    def test_without_an_address(self) -> None:
        with mock.patch.object(socket, "socket", side_effect=AssertionError):
            for notifier in (Notifier(), notifier_of({"WATCHDOG_USEC": "1000000"})):
                notifier.ready()
                self.assertFalse(notifier.is_due())
                notifier.beat("following")
                notifier.stopping("stopped")

    def test_a_manager_that_is_gone(self) -> None:
        notifier = Notifier("/nowhere/notify", 2.0)
        notifier.ready()
        notifier.beat("following")

    def test_the_variables_arent_for_children(self) -> None:
        own = str(os.getpid())
        for pid, interval in (("", 0.2), (own, 0.2), ("1", 1.0)):
            environment = {"NOTIFY_SOCKET": "/x", "WATCHDOG_USEC": "1000000", "HOME": "/"}
            environment |= {"WATCHDOG_PID": pid} if pid else {}
            notifier = notifier_of(environment)
            self.assertEqual(environment, {"HOME": "/"})
            self.assertEqual((notifier.address, notifier.interval), ("/x", interval))

    def test_one_line_tells_how_it_goes(self) -> None:
        progress = Progress()
        self.assertEqual(progress.line(), "starting")
        progress.enter("following")
        progress.stream.note_confirmed(0x100, 0x100)
        self.assertEqual(progress.line(), "following, at 0/100")
        progress.stream.note_sent((0x180).to_bytes(8, "big"))
        self.assertEqual(progress.line(), "following, at 0/100, 128 bytes behind")
        progress.copy.begin_part("public.t")
        progress.copy.note_part(1, False)
        self.assertEqual(progress.line(), "following public.t, 1 row so far")

    def test_what_ends(self) -> None:
        self.assertEqual(ENDING, ("stopping", "stopped", "failed"))
        self.assertEqual(set(ENDING) - set(STATES), set())


class Following(Case):
    def setUp(self) -> None:
        super().setUp()
        self.manager = Manager(self.folder + "/notify")
        self.addCleanup(self.manager.close)

    def follower(self, **options: object) -> Follower:
        follower = super().follower(**options)
        self.progress.notifier = self.signs = Signs(self.manager.address)
        return follower

    def follow(self, follower: Follower, state: str) -> None:
        """Follows until there were many signs of life in a state."""
        self.run_until(follower, lambda: self.signs.count(state) >= SIGNS)

    def test_ready_comes_after_the_login(self) -> None:
        """A server that doesn't answer yet isn't followed."""
        self.server.lets_in = False
        follower = self.follower()
        self.follow(follower, "connecting")
        self.assertNotIn("READY=1", self.manager.lines())
        self.assertIn(ALIVE[1], self.manager.lines())
        self.server.lets_in = True
        follower.ending.stop_asked = False
        self.run_until(follower, lambda: "READY=1" in self.manager.lines())
        self.manager.close()
        lines = self.manager.lines()
        self.assertEqual((lines.count("READY=1"), lines.count("STOPPING=1")), (1, 1))

    def test_in_the_loop(self) -> None:
        self.follow(self.follower(), "following")
        self.manager.close()
        self.assertIn(ALIVE[0], self.manager.lines())
        self.assertIn("STATUS=following", self.manager.lines())

    def test_between_sessions(self) -> None:
        self.patch(schedule, "FIRST_DELAY", 600.0)
        follower = self.follower()
        follower.start.note_connected(True)
        error = ServerError("gone", "57P01")
        with mock.patch.object(follower.session, "run", side_effect=error):
            self.follow(follower, "waiting to connect again")
        self.manager.close()
        self.assertIn("STATUS=waiting to connect again", self.manager.lines())

    def test_while_the_store_is_opened(self) -> None:
        self.patch(filter_module, "LOOK", 0.02)
        with open(self.store + ".says", "w", encoding="ascii") as file:
            file.write("slow 600")
        self.follow(self.follower(), "opening the store")
        self.manager.close()
        self.assertIn(ALIVE[1], self.manager.lines())
        self.assertEqual(self.server.sessions, 0)

    def test_while_a_store_waits_that_others_have(self) -> None:
        follower = self.follower()
        self.patch(filter_life, "OPENED_AFTER", (600.0,))
        with open(self.store + ".says", "w", encoding="ascii") as file:
            file.write("status 12 pgsub: the store is in use")
        follower.life.filter.words[0:1] = ["/bin/sh", "-c", "exit 12", "sh"]
        self.follow(follower, "opening the store")

    def test_while_the_store_is_copied(self) -> None:
        parts = [1] * SIGNS + [0]

        def copied(*_: int) -> int:
            time.sleep(0.005)
            return parts.pop(0)

        self.patch(files, "copied", copied)
        follower = self.follower()
        with mock.patch.object(follower.snapshots, "finish"):
            follower.snapshots.path, follower.snapshots.asked = self.folder + "/into", True
            self.run_until(follower, lambda: not parts)
        self.assertGreaterEqual(self.signs.count("copying the store"), SIGNS)
        self.manager.close()
        self.assertIn("STATUS=copying the store", self.manager.lines())

    def test_where_the_loop_stands_nothing_is_told(self) -> None:
        follower = self.follower()
        told = list[int]()

        def stands(*_: object) -> bool:
            if not told:
                told.append(self.signs.count())
                time.sleep(1.0)
                told.append(self.signs.count())
            return False

        self.patch(follower.life.watch, "tend", stands)
        self.run_until(follower, lambda: len(told) == 2)
        self.assertEqual(*told)


class FirstRows(Copying):
    def test_ready_and_signs_of_life(self) -> None:
        """The copy may take hours: its login counts, and its waits tell that they are some."""
        manager = Manager(self.folder + "/notify")
        self.addCleanup(manager.close)
        copier = self.copier()
        signs = self.progress.notifier = Signs(manager.address)
        real, waits = copier.sender.wait_for, list[int]()

        def wait_for(has_come: Callable[[], bool], *more: int) -> None:
            began, until = signs.count(), time.monotonic() + 60

            def has() -> bool:
                is_told = signs.count() - began >= SIGNS
                return (is_told or time.monotonic() > until) and has_come()

            try:
                real(has, *more)
            finally:
                waits.append(signs.count() - began)

        with mock.patch.object(copier.sender, "wait_for", wait_for):
            copier.run()
        manager.close()
        self.assertIn("READY=1", manager.lines())
        # (the last one is that for the filter's end, which comes at once here)
        self.assertGreaterEqual(min(waits[:-1]), SIGNS)


if __name__ == "__main__":
    unittest.main()
