"""What is noted of the payloads that are passed on."""

from __future__ import annotations

import dataclasses
import tempfile
import unittest

from pgsub_connect.drift.remembered import Remembered
from pgsub_connect.server.catalog import Partition
from pgsub_connect.status.progress import Progress
from pgsub_connect.stream.messages import relation_of
from pgsub_connect.stream.stream_log import Noting
from pgsub_connect.stream.transactions import changes_text

from . import vectors
from .vectors import (
    ID,
    NAME,
    a_catalog,
    a_shape,
    a_table,
    begin,
    commit,
    delete,
    insert,
    keepalive,
    relation,
    update,
)

MORE = (0, "more", 23, -1)


class Case(unittest.TestCase):
    """A store whose tables t (1) and u (2) were copied at 100, and the root (10) with its partition
    p1 (11)."""

    def setUp(self) -> None:
        folder = tempfile.TemporaryDirectory()
        self.addCleanup(folder.cleanup)
        self.remembered = Remembered(folder.name + "/copy.db")
        tables = (a_table(1, "t"), a_table(2, "u"), a_table(10, "root", kind="p"))
        tree = (Partition(10, 0, "public.root", False), Partition(11, 10, "public.p1", True))
        self.remembered.begin_copy(a_catalog(*tables, partitions=tree), 100)
        self.progress = Progress()
        self.noting = Noting(self.progress.stream, self.remembered)

    def note(self, *payloads: bytes) -> None:
        self.noting.note_all(payloads)
        self.noting.show()

    def found(self) -> dict[str, list[str]]:
        return {kind: list(found.texts) for kind, found in self.remembered.found.items()}


class Counts(Case):
    def test_a_pair(self) -> None:
        self.note(begin(500, 77), relation(1, "t"), insert(1), insert(1), update(1), delete(2))
        self.assertEqual((self.progress.stream.changes, self.progress.stream.commits), (4, 0))
        self.note(vectors.truncate(1, 2), vectors.message(), vectors.a_type(9), commit(500, 508))
        self.assertEqual((self.progress.stream.changes, self.progress.stream.commits), (6, 1))
        self.assertEqual(list(self.noting.ends), [508])

    def test_blocks(self) -> None:
        self.note(
            vectors.start(7, True),
            relation(1, "t", xid=7),
            insert(1, 7),
            insert(1, 8),
            vectors.stop(),
        )
        self.note(vectors.start(9, True), insert(2, 9), vectors.stop(), vectors.stream_abort(9, 9))
        self.note(vectors.start(7, False), update(1, 7), vectors.truncate(2, xid=7), vectors.stop())
        self.assertEqual(list(self.noting.ends), [])
        self.note(vectors.stream_commit(7, 600, 608))
        self.assertEqual(
            (self.progress.stream.changes, self.progress.stream.commits, list(self.noting.ends)),
            (5, 1, [608]),
        )
        self.assertIn(
            "transaction 7, final LSN 0/258, 3 changes of public.t (1), 1 change of public.u (2): --skip 0/258",
            self.noting.rejected_text(0),
        )
        self.assertEqual(self.noting.open, {})

    def test_where_the_server_is(self) -> None:
        self.note(keepalive(0x700))
        self.assertEqual(self.progress.stream.sent_to, (0x700).to_bytes(8, "big"))
        self.assertIsNone(self.noting.asked)
        self.note(keepalive(0x800, asks=True))
        self.assertEqual(self.noting.asked, 0x800)
        self.note(vectors.data(b"E", end=0x900))
        self.assertEqual(self.progress.stream.sent_to, (0x900).to_bytes(8, "big"))

    def test_confirmed(self) -> None:
        for lsn in (500, 510, 520):
            self.note(begin(lsn, 7), insert(1), commit(lsn, lsn + 8))
        self.assertEqual(self.noting.confirm(507, 100), 100)
        self.assertEqual(self.noting.confirm(518, 100), 518)
        self.assertEqual(self.noting.confirm(9999, 600), 600)
        self.assertEqual((list(self.noting.ends), list(self.noting.passed)), ([], []))

    def test_what_isnt_in_order_is_left_to_the_filter(self) -> None:
        self.note(
            insert(1),
            commit(5, 6),
            vectors.stop(),
            vectors.stream_commit(3, 4, 5),
            vectors.stream_abort(1, 2),
            b"w" + bytes(24),
        )
        self.note(
            begin(1, 1),
            vectors.data(b"R"),
            vectors.data(b"R\0\0\0\1pub"),
            insert(1),
            commit(1, 2),
            vectors.data(b"T"),
            b"x",
            b"k",
        )
        self.assertEqual(self.found(), {})


class Rejected(Case):
    def test_the_first_above_the_store(self) -> None:
        self.note(
            begin(500, 76),
            insert(1),
            commit(500, 508),
            begin(0x1_0000_0210, 77),
            relation(1, "t"),
            insert(1),
            insert(1),
            delete(2),
        )
        self.note(
            commit(0x1_0000_0210, 0x1_0000_0218),
            begin(0x1_0000_0300, 78),
            insert(2),
            commit(0x1_0000_0300, 0x1_0000_0308),
        )
        self.assertEqual(
            self.noting.rejected_text(508),
            "rejected: transaction 77, final LSN 1/210, 2 changes of public.t (1), 1 change of public.u (2): --skip 1/210 passes over it",
        )
        self.assertEqual(self.noting.rejected_text(0x1_0000_0308), "")

    def test_of_what_was_rolled_back_nothing_is_sure(self) -> None:
        self.note(
            vectors.start(7, True),
            insert(1, 7),
            insert(1, 8),
            vectors.stop(),
            vectors.stream_abort(7, 8),
        )
        self.note(vectors.stream_commit(7, 600, 608))
        self.assertIn("at most 2 changes of public.t (1)", self.noting.rejected_text(0))

    def test_many_tables(self) -> None:
        counts = {b"I" + oid.to_bytes(4, "big"): oid for oid in range(101, 109)}
        text = changes_text(counts, self.remembered)
        self.assertTrue(text.startswith("108 changes of table 108, 107 changes of table 107"), text)
        self.assertTrue(text.endswith("and of 3 tables more"), text)
        self.assertEqual(changes_text({}, self.remembered), "no changes")

    def test_sizes(self) -> None:
        self.assertEqual(self.noting.largest(), (0, 0))
        self.note(begin(500, 77), insert(1))
        self.note(insert(1), insert(1))
        self.assertEqual(self.noting.largest(), (77, 3 * len(insert(1))))
        self.note(commit(500, 508), vectors.start(8, True), insert(1, 8))
        self.assertEqual(
            self.noting.largest(),
            (77, 3 * len(insert(1)) + len(commit(500, 508))),
            "it may be what is stored now",
        )
        self.noting.confirm(508, 0)
        self.assertEqual(self.noting.largest(), (8, len(insert(1, 8))))
        self.note(
            vectors.stop(),
            vectors.start(9, True),
            insert(1, 9),
            vectors.stop(),
            vectors.start(8, False),
            insert(1, 8),
        )
        self.assertEqual(self.noting.largest(), (8, 2 * len(insert(1, 8)) + len(vectors.stop())))


class Relations(Case):
    def test_the_same(self) -> None:
        self.note(begin(500, 7), relation(1, "t"), insert(1), commit(500, 508))
        self.assertEqual(
            (self.found(), self.remembered.last_sent(1), self.noting.relation_log.wants_look),
            ({}, 500, False),
        )
        self.assertFalse(self.remembered.unsaved.is_urgent and self.remembered.found.news)

    def test_a_column(self) -> None:
        self.note(begin(500, 7), relation(1, "t", [ID, NAME, MORE]), insert(1))
        self.assertEqual(self.found(), {})
        self.note(commit(500, 508))
        self.assertEqual(list(self.found()), ["values"])
        self.assertEqual(self.remembered.found["values"].lsn, 500)
        self.note(begin(510, 8), relation(1, "t", [ID, NAME, MORE]), insert(1), commit(510, 518))
        self.assertEqual(len(self.found()["values"]), 1)

    def test_each_of_one_commit(self) -> None:
        self.note(
            begin(500, 7),
            relation(1, "t", [ID, NAME, MORE]),
            insert(1),
            relation(1, "t"),
            insert(1),
            commit(500, 508),
        )
        self.assertEqual(len(self.found()["values"]), 1)
        self.assertEqual(self.remembered.sent[1].shape, a_shape(numbers=[0, 0]))

    def test_a_pair_that_isnt_complete(self) -> None:
        self.note(begin(500, 7), relation(1, "t", [ID, NAME, MORE]), insert(1))
        self.noting.begin_session()
        self.note(begin(500, 7), insert(2), commit(500, 508))
        self.assertEqual((self.found(), list(self.noting.ends)), ({}, [508]))

    def test_a_repeat_is_older(self) -> None:
        self.note(begin(500, 7), relation(1, "t", [ID, NAME, MORE]), insert(1), commit(500, 508))
        self.noting.begin_session()
        self.note(begin(400, 6), relation(1, "t"), insert(1), commit(400, 408))
        self.note(begin(500, 7), relation(1, "t", [ID, NAME, MORE]), insert(1), commit(500, 508))
        self.assertEqual(len(self.found()["values"]), 1)
        self.assertEqual(self.remembered.last_sent(1), 500)

    def test_in_blocks(self) -> None:
        self.note(
            vectors.start(7, True),
            relation(1, "t", [ID, NAME, MORE], xid=7),
            insert(1, 7),
            vectors.stop(),
        )
        self.note(begin(500, 8), insert(2), commit(500, 508))
        self.assertEqual(self.found(), {})
        self.note(vectors.stream_commit(7, 600, 608))
        self.assertEqual(self.remembered.found["values"].lsn, 600)

    def test_of_an_aborted_transaction(self) -> None:
        self.note(
            vectors.start(7, True),
            relation(1, "t", [ID, MORE], xid=7),
            insert(1, 7),
            vectors.stop(),
            vectors.stream_abort(7, 7),
        )
        self.note(begin(500, 8), relation(1, "t"), insert(1), commit(500, 508))
        self.assertEqual(self.found(), {})

    def test_of_an_aborted_subtransaction(self) -> None:
        self.note(
            vectors.start(7, True),
            relation(2, "u", [ID, NAME, MORE], xid=7),
            insert(2, 7),
            relation(1, "t", [ID, MORE], xid=8),
        )
        self.note(insert(1, 8), vectors.stop(), vectors.stream_abort(7, 8))
        self.note(
            vectors.start(7, False),
            relation(1, "t", xid=9),
            insert(1, 9),
            vectors.stop(),
            vectors.stream_commit(7, 600, 608),
        )
        self.assertEqual(
            [it for texts in self.found().values() for it in texts if "public.t" in it], []
        )
        self.assertEqual(len(self.found()["values"]), 1)

    def test_a_table_whose_primary_key_isnt_told(self) -> None:
        """It may have another one."""
        for identity, xid, feed, wants in (
            ("d", 0, "", False),
            ("d", 9, "feed", False),
            ("f", 9, "", False),
            ("f", 9, "feed", True),
            ("f", 0, "", True),
            ("i", 0, "", True),
        ):
            with self.subTest(identity=identity, xid=xid):
                self.remembered.feed = feed
                for lsn in (500, 510):
                    self.noting.relation_log.wants_look = False
                    it = relation(1, "t", identity=identity, xid=xid or None)
                    if xid:
                        blocks = vectors.start(xid, True), it, insert(1, xid), vectors.stop()
                        self.note(*blocks, vectors.stream_commit(xid, lsn, lsn + 8))
                    else:
                        self.note(begin(lsn, 7), it, insert(1), commit(lsn, lsn + 8))
                    self.assertEqual(self.noting.relation_log.wants_look, wants)

    def test_until_a_look_keys_arent_known(self) -> None:
        """Nor before the first one: of the run before one may have been due."""
        relations = self.noting.relation_log
        known = [relations.knows_keys()]
        for wants_look in (True, False):
            relations.note_look(wants_look)
            known.append(relations.knows_keys())
        full = relation(1, "t", identity="f")
        self.note(begin(500, 7), full, insert(1), commit(500, 508))
        known.append(relations.knows_keys())
        for wants_look in (True, False):
            relations.note_look(wants_look)
            known.append(relations.knows_keys())
        self.assertEqual(known, [False, False, True, False, False, True])

    def test_a_name_that_goes_and_comes_back(self) -> None:
        """In later commits, and within one: the table whose row came last has it."""
        one, other = (relation(1, "t"), insert(1)), (relation(2, "t"), insert(2))
        commits = iter(range(500, 2000, 100))

        def note(*payloads: bytes) -> int | None:
            at = next(commits)
            self.note(begin(at, at), *payloads, commit(at, at + 8))
            return self.remembered.names["public", "t"].oid

        self.assertEqual([note(*it) for it in (one, other, one, other)], [1, 2, 1, 2])
        self.assertEqual(note(*other, *one), 1)
        self.assertEqual(note(*one, *other, *one), 1)
        self.assertEqual(note(*one, *other), 2)

    def test_a_table_of_the_same_name(self) -> None:
        self.note(begin(500, 7), relation(3, "t"), insert(3), commit(500, 508))
        self.assertTrue(self.noting.relation_log.wants_look)
        text = self.found()["names"][0]
        for word in ("public.t", "table 3 now", "was 1 before"):
            self.assertIn(word, text)
        self.noting.relation_log.wants_look = False
        self.note(begin(510, 7), relation(3, "t"), insert(3), commit(510, 518))
        self.assertFalse(self.noting.relation_log.wants_look)

    def test_a_partition_has_no_changes(self) -> None:
        self.note(
            begin(500, 7),
            relation(10, "root"),
            relation(11, "p1", [ID, MORE]),
            insert(10),
            commit(500, 508),
        )
        self.assertEqual((self.found(), self.noting.relation_log.wants_look), ({}, False))
        self.assertEqual(self.noting.relation_log.described, {})

    def test_a_new_partition_asks_for_a_look(self) -> None:
        self.note(
            begin(500, 7), relation(10, "root"), relation(12, "p2"), insert(10), commit(500, 508)
        )
        self.assertEqual((self.found(), self.noting.relation_log.wants_look), ({}, True))
        self.note(begin(510, 7), insert(10), commit(510, 518))
        self.assertNotIn(12, self.remembered.sent)

    def test_changes_under_the_name_of_a_root_that_was_not_published(self) -> None:
        """It is known by its partitions, whose rows came under their own names: from now on the
        copy has two of them."""
        assert self.remembered.catalog
        self.remembered.catalog.partitions.update(
            {20: Partition(20, 0, "public.parted", False), 2: Partition(2, 20, "public.u", True)}
        )
        self.note(
            begin(500, 7), relation(20, "parted"), relation(2, "u"), insert(2), commit(500, 508)
        )
        self.assertFalse(self.noting.relation_log.wants_look)
        self.note(
            begin(510, 7), relation(20, "parted"), relation(2, "u"), insert(20), commit(510, 518)
        )
        self.assertTrue(self.noting.relation_log.wants_look)
        self.assertEqual(self.remembered.text_of(20), "public.parted (20)")

    def test_a_table_that_left_and_joined_again(self) -> None:
        """Each time asks for a look, unless the last one was later."""
        assert self.remembered.catalog
        it = self.remembered.catalog.tables[1]
        self.note(begin(500, 7), relation(1, "t"), insert(1), commit(500, 508))
        for lsn, looked, wants in ((510, 600, False), (610, 600, True), (620, 620, False)):
            self.remembered.catalog.tables.pop(1, None)
            self.remembered.catalog = dataclasses.replace(self.remembered.catalog, lsn=looked)
            self.noting.relation_log.wants_look = False
            self.note(begin(lsn, 7), relation(1, "t"), insert(1), commit(lsn, lsn + 8))
            self.assertEqual(self.noting.relation_log.wants_look, wants, lsn)
        for lsn in (700, 720):
            self.remembered.catalog.tables[1] = it
            self.note(begin(lsn, 7), relation(1, "t"), insert(1), commit(lsn, lsn + 8))
            self.remembered.catalog.tables.pop(1)
            self.noting.relation_log.wants_look = False
            self.note(begin(lsn + 10, 7), relation(1, "t"), insert(1), commit(lsn + 10, lsn + 18))
            self.assertTrue(self.noting.relation_log.wants_look)

    def test_a_change_in_a_later_commit(self) -> None:
        self.note(begin(500, 7), relation(1, "t", [ID, NAME, MORE]), insert(2), commit(500, 508))
        self.assertEqual(self.found(), {})
        self.note(begin(510, 7), insert(1), commit(510, 518))
        self.assertEqual(self.remembered.found["values"].lsn, 510)


class Bodies(unittest.TestCase):
    def test_fields(self) -> None:
        body = vectors.relation_body(
            0xFFFFFFFF,
            "odd name",
            "f",
            [(1, "a\u00e4", 0xFFFFFFFE, -5), (0, "", 1, 2**31 - 1)],
            "",
        )
        found = relation_of(body)
        assert found
        self.assertEqual(
            (found.oid, found.namespace, found.name), (0xFFFFFFFF, "pg_catalog", "odd name")
        )
        self.assertEqual(
            found.shape,
            a_shape([(1, "a\u00e4", 0xFFFFFFFE, -5), (0, "", 1, 2**31 - 1)], "f", [0, 0]),
        )
        self.assertEqual(found.text(), "pg_catalog.odd name (4294967295)")

    def test_no_columns(self) -> None:
        found = relation_of(vectors.relation_body(5, "t", "d", []))
        self.assertEqual(found and found.shape, a_shape([], "d"))

    def test_truncated(self) -> None:
        body = vectors.relation_body(5, "t", "d", [ID, NAME])
        for length in range(len(body)):
            self.assertIsNone(relation_of(body[:length]), length)
        self.assertIsNone(relation_of(body.replace(b"id", b"\xff\xfe")))


if __name__ == "__main__":
    unittest.main()
