"""What was found, from one run to the next, and the words that go with it."""

from __future__ import annotations

import dataclasses
import tempfile
import time
import unittest
from unittest import mock

from pgsub_connect import cli
from pgsub_connect.drift.remembered import Remembered
from pgsub_connect.errors import ServerError
from pgsub_connect.follow import drift_watch as watch_module
from pgsub_connect.follow.drift_watch import Watch
from pgsub_connect.server.catalog import Catalog
from pgsub_connect.server.session import Subscription
from pgsub_connect.status.files import status_fields
from pgsub_connect.status.progress import Progress
from pgsub_connect.store.checkpoint import Checkpoint, read_known
from pgsub_connect.stream.common import Common, Tolerance
from pgsub_feed.errors import FILE, Unfit
from pgsub_feed.interruption import never
from pgsub_feed.relation import Relation

from .fake_server import FakeServer, connection_to
from .settled import settled
from .vectors import ID, NAME, PGSUB, a_catalog, a_shape, a_table, logged

T, U = a_table(1, "t"), a_table(2, "u")
WIDER = a_shape([ID, NAME, (0, "more", 23, -1)])


class Case(unittest.TestCase):
    def setUp(self) -> None:
        folder = tempfile.TemporaryDirectory()
        self.addCleanup(folder.cleanup)
        self.store = folder.name + "/copy.db"
        self.checkpoint = Checkpoint(self.store)
        self.progress = Progress()
        self.remembered = Remembered(self.store)
        self.remembered.begin_copy(a_catalog(T), 100)
        self.remembered.save()

    def watch(self, *accept: str, strict: bool = False) -> Watch:
        """That of a new run."""
        self.progress, self.remembered = Progress(), Remembered(self.store)
        watch = Watch(
            Common(
                Subscription(publications=["pgsub"]),
                Tolerance(accept, strict),
                self.checkpoint,
                self.progress,
                self.remembered,
            )
        )
        watch.begin()
        return watch

    def compare(self, watch: Watch, now: Catalog) -> None:
        with mock.patch("pgsub_connect.follow.drift_watch.read_catalog", return_value=now):
            watch.compare(connection_to(FakeServer()), 100)


class Ahead(Case):
    """A look whose reading was begun while a filter opened its store."""

    def test_it_compares_what_was_read(self) -> None:
        """On the connection by which that was read, which goes then."""
        server, watch = FakeServer(), self.watch()
        catalogs = [a_catalog(T, U, lsn=200), a_catalog(T, lsn=300)]
        with logged() as said, mock.patch(
            "pgsub_connect.server.session.Connection", server.connect
        ), mock.patch(
            "pgsub_connect.follow.reading_ahead.read_catalog", side_effect=catalogs[:1]
        ), mock.patch(
            "pgsub_connect.follow.drift_watch.read_catalog", side_effect=catalogs[1:]
        ):
            watch.read_ahead()
            self.assertTrue(watch.look_again(never, 100))
            self.assertEqual((server.opened, server.closed), (1, 1))
            self.assertIn("table public.u (2) joined", "".join(said))
            # (the next one reads anew)
            self.assertTrue(watch.look_again(never, 100))
            self.assertEqual((server.opened, server.closed), (2, 2))
        assert self.remembered.catalog
        self.assertEqual(list(self.remembered.catalog.tables), [1])

    def test_what_is_in_the_way_is_told_by_the_look(self) -> None:
        """Which reads itself then, as where nothing was begun; where nobody looks it goes."""
        server, watch = FakeServer(), self.watch()
        with logged() as said, mock.patch(
            "pgsub_connect.server.session.Connection", server.connect
        ), mock.patch(
            "pgsub_connect.follow.reading_ahead.read_catalog",
            side_effect=ServerError("no", "42501"),
        ), mock.patch(
            "pgsub_connect.follow.drift_watch.read_catalog", side_effect=ServerError("no", "42501")
        ):
            watch.read_ahead()
            self.assertFalse(watch.look_again(never, 100))
            self.assertEqual((server.opened, server.closed), (2, 2))
            self.assertIn("the publications can't be looked at now: no", "".join(said))
            watch.read_ahead()
            watch.finish()
            self.assertEqual((server.opened, server.closed), (3, 3))


class Shown(Case):
    def test_what_takes_long_is_told_in_its_time(self) -> None:
        """The log has it at once, and the progress later, or the cost would grow with the square of
        what was found."""
        watch = self.watch()
        with logged() as said, mock.patch.object(watch_module, "LITTLE", -1.0), mock.patch.object(
            watch_module, "PART", 1e9
        ):
            self.compare(watch, a_catalog(T, U, lsn=200))
            before = self.progress.findings.found["publication"]
            self.compare(watch, a_catalog(T, U, a_table(3, "v"), lsn=300))
        self.assertEqual(len(said), 2)
        self.assertEqual(self.progress.findings.found["publication"], before)
        watch.tend(False, never, 0)
        self.assertNotIn("public.v", self.progress.findings.found["publication"])
        watch.next_show = 0.0
        watch.tend(False, never, 0)
        self.assertIn("public.v", self.progress.findings.found["publication"])

    def test_a_strict_one_ends_at_once(self) -> None:
        watch = self.watch()
        with logged(), mock.patch.object(watch_module, "LITTLE", -1.0), mock.patch.object(
            watch_module, "PART", 1e9
        ):
            self.compare(watch, a_catalog(T, U, lsn=200))
            watch.tolerance.is_strict = True
            with self.assertRaisesRegex(Unfit, "public.v"):
                self.compare(watch, a_catalog(T, U, a_table(3, "v"), lsn=300))


class Found(Case):
    def test_long_texts_are_cut(self) -> None:
        with logged() as said:
            self.compare(self.watch(), a_catalog(T, a_table(2, "u" * 9000), lsn=200))
        self.assertTrue(all(len(it) < 2200 for it in said))
        (kept,) = Remembered(self.store).found["publication"].texts
        self.assertTrue(len(kept) < 2100 and kept.endswith(" characters)"))

    def test_is_kept_and_told_at_each_start(self) -> None:
        with logged() as said:
            self.compare(self.watch(), a_catalog(T, U, lsn=200))
        self.assertEqual(len(said), 1)
        self.assertIn("found: publication at 0/C8: table public.u (2) joined", said[0])
        self.assertEqual(read_known(self.checkpoint.path).found, {"publication": "0/C8"})
        for _ in range(2):
            with logged() as again:
                self.compare(self.watch(), a_catalog(T, U, lsn=300))
            self.assertEqual(again, said)
            self.assertEqual(list(self.progress.findings.found), ["publication"])
            self.assertIn("found", status_fields(self.progress, 0.0, 0.0))

    def test_accepted(self) -> None:
        with logged():
            self.compare(self.watch(), a_catalog(dataclasses.replace(T, shape=WIDER), U, lsn=200))
        with logged() as said:
            self.watch("publication")
        self.assertEqual(["values" in line for line in said], [True])
        self.assertEqual(
            (list(read_known(self.checkpoint.path).found), list(Remembered(self.store).found)),
            (["values"], ["values"]),
        )
        with logged() as said:
            self.compare(
                self.watch("all", strict=True),
                a_catalog(dataclasses.replace(T, shape=WIDER), U, lsn=300),
            )
        self.assertEqual((said, self.progress.findings.found), ([], {}))

    def test_a_gap_is_accepted_with_its_finding(self) -> None:
        """That is called `slot`: the two words are one. So a strict start goes on."""
        for word in ("gap", "slot", "all"):
            with logged():
                self.watch().note("slot", 200, "somebody else moved the slot")
            self.assertEqual(list(read_known(self.checkpoint.path).found), ["slot"])
            shown = self.progress.findings.found
            self.assertEqual(shown, {"slot": "somebody else moved the slot"})
            with logged() as said:
                self.watch(word, strict=True)
            self.assertEqual(
                (said, read_known(self.checkpoint.path).found, Remembered(self.store).found),
                ([], {}, {}),
                word,
            )

    def test_strict(self) -> None:
        with logged(), self.assertRaisesRegex(
            Unfit, "(?s)--accept.*publication: table public.u .2. joined"
        ):
            self.compare(self.watch(strict=True), a_catalog(T, U, lsn=200))
        with logged(), self.assertRaisesRegex(Unfit, "joined"):
            self.watch(strict=True)
        with logged():
            self.watch("publication", strict=True)

    def test_by_a_message(self) -> None:
        watch = self.watch(strict=True)
        self.remembered.note(Relation(3, "public", "t", T.shape), 200, -1)
        with logged() as said, self.assertRaisesRegex(Unfit, "names: public.t is table 3 now"):
            watch.tend(False, never, 100)
        self.assertEqual(len(said), 1)
        self.assertEqual(read_known(self.checkpoint.path).found, {"names": "0/C8"})
        self.assertEqual(list(Remembered(self.store).found), ["names"])

    def test_of_others(self) -> None:
        with logged() as said:
            self.watch().note("history", 300, "the store has changes that the server hasn't")
        self.assertEqual(said, [])
        with logged() as said:
            self.watch()
        self.assertIn("found: history at 0/12C: the store has changes", said[0])

    def test_one_of_the_two_files_is_gone(self) -> None:
        with logged():
            self.compare(self.watch(), a_catalog(T, U, lsn=200))
        self.checkpoint.write(True, found={})
        with logged() as said:
            self.watch()
        self.assertEqual(
            (len(said), read_known(self.checkpoint.path).found), (1, {"publication": "0/C8"})
        )
        self.remembered.remove()
        with logged() as said:
            watch = self.watch()
        self.assertIn("found: publication at 0/C8: see the log", said[0])
        with logged() as said:
            self.compare(watch, a_catalog(T, U, lsn=300))
        self.assertIn("copy.db.tables remembers the publications as they are now", said[0])
        self.assertEqual(Remembered(self.store).publications(), ["pgsub"])


class Looks(Case):
    def test_where_a_table_is_unknown(self) -> None:
        watch = self.watch()
        clock = mock.patch("time.monotonic", return_value=time.monotonic())
        clock.start()
        self.addCleanup(clock.stop)
        with mock.patch("pgsub_connect.server.session.Connection") as connection, mock.patch(
            "pgsub_connect.server.session.settle"
        ):
            with mock.patch(
                "pgsub_connect.follow.drift_watch.read_catalog",
                return_value=a_catalog(T, U, lsn=200),
            ), logged() as said:
                self.assertFalse(watch.tend(True, never, 100))
            self.assertEqual(len(said), 1)
            connection.return_value.close.assert_called_once()
            self.assertTrue(watch.tend(True, never, 100), "not twice within a second")

    def test_now_and_then(self) -> None:
        """No message tells that a partition was detached, or a row filter altered."""
        with mock.patch("pgsub_connect.follow.drift_watch.AT_LEAST", 5.0), mock.patch(
            "time.monotonic"
        ) as clock, mock.patch("pgsub_connect.server.session.Connection") as connection, mock.patch(
            "pgsub_connect.server.session.settle"
        ), mock.patch(
            "pgsub_connect.follow.drift_watch.read_catalog", return_value=a_catalog(T, U, lsn=200)
        ), logged() as said:
            clock.return_value = 100.0
            watch = self.watch()
            for at, looks in ((100.0, 0), (104.9, 0), (105.0, 1), (109.9, 1), (110.0, 2)):
                clock.return_value = at
                self.assertFalse(watch.tend(False, never, 100))
                self.assertEqual(connection.call_count, looks, at)
        self.assertIn("found: publication at 0/C8: table public.u (2) joined", said[0])

    def test_that_fail_are_tried_again(self) -> None:
        watch = self.watch()
        with mock.patch(
            "pgsub_connect.server.session.Connection", side_effect=ServerError("gone")
        ) as connection, logged() as said:
            self.assertTrue(watch.tend(True, never, 100))
            self.assertTrue(watch.tend(True, never, 100))
        self.assertEqual((len(said), connection.call_count), (1, 1))

    def test_why_they_fail_is_told_once(self) -> None:
        """And again once a look between was possible."""
        watch, now = self.watch(), a_catalog(T, lsn=200)
        cases: list[tuple[list[Catalog | ServerError], int]] = [
            ([ServerError("gone")] * 3, 1),
            ([now, ServerError("gone")], 1),
            ([now], 0),
        ]
        for outcomes, lines in cases:
            with mock.patch("pgsub_connect.server.session.Connection"), mock.patch(
                "pgsub_connect.server.session.settle"
            ), mock.patch(
                "pgsub_connect.follow.drift_watch.read_catalog", side_effect=outcomes
            ), logged() as said:
                for outcome in outcomes:
                    self.assertIs(watch.look_again(never, 100), outcome is now)
            self.assertEqual(len(said), lines)

    def test_a_lock_in_the_way(self) -> None:
        watch, connection = self.watch(), mock.Mock()
        with mock.patch(
            "pgsub_connect.follow.drift_watch.read_catalog",
            side_effect=ServerError("lock timeout", "55P03"),
        ), logged() as said:
            self.assertFalse(watch.compare(connection, 100))
        self.assertEqual(
            [it.args[0] for it in connection.run.call_args_list],
            ["SET lock_timeout = 500", "SET lock_timeout = 0"],
        )
        self.assertIn("can't be looked at now: lock timeout", said[0])
        with mock.patch(
            "pgsub_connect.follow.drift_watch.read_catalog",
            side_effect=ServerError("gone", "57P01"),
        ), self.assertRaises(ServerError):
            watch.compare(connection, 100)

    def test_a_publication_of_inserts(self) -> None:
        few = dataclasses.replace(PGSUB, actions=("insert", "update"))
        self.remembered.begin(a_catalog(publication=few))
        self.remembered.save()
        watch = self.watch()
        with logged() as said:
            self.compare(watch, a_catalog(publication=few))
            self.compare(watch, a_catalog(publication=few))
        self.assertEqual(len(said), 1)
        self.assertIn("publication pgsub has no deletes and no truncates", said[0])
        watch = self.watch()
        self.remembered.note_made({"pgsub": 900})
        with logged() as said:
            self.compare(watch, a_catalog(publication=few))
        self.assertEqual(said, [])

    def test_what_isnt_urgent_is_written_now_and_then(self) -> None:
        watch = self.watch()
        with mock.patch.object(self.remembered, "save", wraps=self.remembered.save) as save:
            for lsn in (200, 210, 220):
                self.remembered.note_again(1, lsn)
                watch.tend(False, never, 100)
            self.assertEqual(save.call_count, 1)
            watch.finish()
            watch.finish()
            self.assertEqual(save.call_count, 2)
        self.assertEqual(Remembered(self.store).last_sent(1), 220)


class Words(Case):
    def publications(self, *words: str, store: bool = True) -> list[str]:
        if store:
            with open(self.store, "w", encoding="ascii") as file:
                file.write("a store")
        options = settled(["follow", "--store", self.store, "--pgsub", "/bin/true", *words])
        return list(options.publication)

    def test_the_default_publications_are_those_that_were_followed(self) -> None:
        self.assertEqual(self.publications(store=False), ["pgsub"])
        self.remembered.begin(a_catalog(names=["b", "a"]))
        self.remembered.save()
        self.assertEqual(self.publications(), ["b", "a"])
        self.assertEqual(self.publications("--publication", "c"), ["c"])
        self.remembered.remove()
        self.assertEqual(self.publications(), ["pgsub"])

    def test_the_publications_of_inserts_are_followed_again(self) -> None:
        """The first run has made them beside those that are named, and its words are given
        again."""
        self.remembered.begin(a_catalog(names=["shop", "shop_inserts", "other"]))
        self.remembered.save()
        keyless = ("--create", "--keyless", "inserts")
        for words, names in (
            (("--publication", "shop", *keyless), ["shop", "shop_inserts"]),
            (
                ("--publication", "shop", "--publication", "other", *keyless),
                ["shop", "shop_inserts", "other"],
            ),
            (
                ("--publication", "shop", "--publication", "shop_inserts", *keyless),
                ["shop", "shop_inserts"],
            ),
            (("--publication", "shop"), ["shop"]),
            (keyless, ["shop", "shop_inserts", "other"]),
        ):
            self.assertEqual(self.publications(*words), names, words)
        self.assertEqual(self.publications("--publication", "pgsub", *keyless), ["pgsub"])

    def test_names(self) -> None:
        with mock.patch("builtins.print") as said:
            self.assertEqual(cli.main(["names", "--store", self.store]), 0)
        said.assert_called_once_with(
            '{"schema": "public", "table": "t", "oid": 1, "since": "0/64", "before": []}'
        )
        with logged() as lines:
            self.assertEqual(cli.main(["names", "--store", self.store + "x"]), FILE)
        self.assertIn("there is no store", lines[0])


if __name__ == "__main__":
    unittest.main()
