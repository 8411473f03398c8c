"""Whatever a file says that others may have written: an error tells so, or it isn't heard."""

from __future__ import annotations

import contextlib
import json
import os
from collections.abc import Callable
from typing import Any
from unittest import mock

from pgsub_connect.cli import main
from pgsub_connect.commands.drop import made_publications, read_remembered
from pgsub_connect.drift.remembered import Remembered
from pgsub_connect.follow.snapshots import Snapshots
from pgsub_connect.store.checkpoint import Checkpoint
from pgsub_feed import json_texts
from pgsub_feed.errors import BUG, FILE, FileError
from pgsub_feed.interruption import never
from pgsub_feed.json_texts import Unreadable, parsed

from .asking import Asker, asking, snapshots_of
from .fake_server import Quiet
from .hostile import TEXTS, altered
from .stores import StoreCase
from .vectors import logged


class Parsed(Quiet):
    def test_texts(self) -> None:
        for text in TEXTS[:3] + TEXTS[7:10] + TEXTS[11:16] + TEXTS[17:]:
            self.assertRaises(Unreadable, parsed, text)
        self.assertEqual(parsed(b'{"a":[1,2.5,"x",null,true]}'), {"a": [1, 2.5, "x", None, True]})
        self.assertEqual(parsed("[" * 50 + "]" * 50), json.loads("[" * 50 + "]" * 50))
        self.assertRaises(Unreadable, parsed, "[" * 51 + "]" * 51)

    def test_kinds(self) -> None:
        kinds: tuple[tuple[Callable[[Any], object], list[Any], list[Any]], ...] = (
            (json_texts.object_of, [{}], [[], "x", 5, None]),
            (json_texts.list_of, [[]], [{}, "x", None]),
            (json_texts.text_of, ["x"], [5, None]),
            (json_texts.whole_of, [0, (1 << 64) - 1], [-1, 1 << 64, True, 1.0, "1", None]),
            (json_texts.number_of, [0, -1.5], [True, "1", None, 10**400]),
            (json_texts.flag_of, [True], [1, 0, None, "true"]),
            (
                json_texts.oid_of,
                [5, "5", (1 << 32) - 1],
                [1 << 32, "x", "-5", "\u0665", "99999999999", 1.5],
            ),
            (json_texts.lsn_of, ["0/1"], [5, "1", "0/x", None]),
        )
        for call, right, wrong in kinds:
            for it in right:
                call(it)
            for it in wrong:
                with self.assertRaises(Unreadable, msg=f"{call} {it!r}"):
                    call(it)

    def test_what_is_no_file(self) -> None:
        folder = self.make_folder()
        os.mkfifo(folder + "/pipe")
        os.symlink("pipe", folder + "/link")
        for name in ("pipe", "link", ""):
            self.assertRaises(Unreadable, json_texts.read_plain, f"{folder}/{name}", 10)
        with open(folder + "/file", "w") as file:
            file.write("x" * 11)
        self.assertRaises(Unreadable, json_texts.read_plain, folder + "/file", 10)
        self.assertEqual(json_texts.read_plain(folder + "/file", 11), b"x" * 11)


class Files(StoreCase):
    """Those beside a store."""

    TABLES: Any = {
        "format": 2,
        "made": {"pgsub": 5},
        "feed": "",
        "base": False,
        "database": [5, "shop"],
        "catalog": {
            "names": ["pgsub"],
            "lsn": "0/100",
            "highest": 20000,
            "running": 7,
            "publications": {
                "pgsub": {
                    "oid": 5,
                    "whole": False,
                    "actions": ["insert"],
                    "via_root": False,
                    "generated": False,
                    "owner": 10,
                    "since": "7",
                }
            },
            "tables": {
                "16384": {
                    "oid": 16384,
                    "namespace": "public",
                    "name": "t",
                    "kind": "r",
                    "shape": {"identity": "d", "columns": [["id", 23, -1, True, 1]]},
                    "parts": {"pgsub": [None, [1], False, ["7"]]},
                    "node": 16384,
                    "altered": "7",
                    "logged": True,
                    "toast": 0,
                    "primary": ["id"],
                    "indexes": [[16390, "i", [["id", False]], ""]],
                }
            },
            "partitions": {
                "16385": {
                    "oid": 16385,
                    "parent": 16384,
                    "name": "public.p",
                    "leaf": True,
                    "node": 16385,
                    "since": "7",
                    "logged": True,
                    "toast": 0,
                }
            },
            "types": {"23": {"name": "int4"}},
        },
        "sent": {
            "16384": {
                "lsn": "0/100",
                "shape": {"identity": "d", "columns": [["id", 23, -1, True, 0]]},
            }
        },
        "names": [["public", "t", 16384, "0/100", [5]]],
        "found": {
            "values": {
                "lsn": "0/100",
                "texts": {"a text": [[16384], "", 23, "", False, "", ""]},
                "more": 0,
            }
        },
        "mended": {"a text": [16384]},
        "outstanding": {
            "copied": {"16384": 256},
            "wanted": {"16384": "why"},
            "unwanted": [5],
            "partial": [6],
        },
        "left": [7],
        "told": {"a text": "0/100"},
    }

    def put(self, suffix: str, content: bytes) -> str:
        path = self.path + suffix
        with contextlib.suppress(FileNotFoundError):
            os.unlink(path)
        with open(path, "wb") as file:
            file.write(content)
        return path

    def test_what_is_remembered(self) -> None:
        self.put(".tables", json.dumps(self.TABLES).encode())
        self.assertEqual(Remembered(self.path).text_of(16384), "public.t (16384)")
        for text in TEXTS:
            self.put(".tables", text)
            with self.assertRaises(FileError, msg=repr(text[:50])):
                Remembered(self.path)
        count = 0
        for said in altered(self.TABLES):
            path = self.put(".tables", said.encode())
            count += 1
            with contextlib.suppress(FileError):
                remembered = Remembered(self.path)
                # (what is taken is right: it can be looked through and written)
                remembered.names.rows(), remembered.found_of(16384), remembered.text_of(16384)
                remembered.save()
            made_publications(read_remembered(path))
        self.assertGreater(count, 1000)

    def test_what_is_remembered_is_a_pipe(self) -> None:
        os.mkfifo(self.path + ".tables")
        self.assertRaises(FileError, Remembered, self.path)
        self.assertEqual(read_remembered(self.path + ".tables"), {})

    def test_a_checkpoint(self) -> None:
        for text in TEXTS:
            self.put(".connector", text)
            if not text.strip(b"\0 \n"):
                os.close(Checkpoint(self.path).file)
                continue
            with self.assertRaises(FileError, msg=repr(text[:50])):
                Checkpoint(self.path)

    def test_requests(self) -> None:
        """The follower goes on whatever they say, and makes only new files beside the store."""
        new = self.folder + "/new.db"
        right = {"ask": "hold", "into": new, "seconds": 5.0, "repair": True, "maker": 5}
        asked = (right, {"ask": "copy", "into": new}, {"ask": "add", "add": [5], "remove": [6]})
        follower = snapshots_of(self, self.path)
        follower.adds = lambda asked: "none is added"
        for text in (*TEXTS, *(it.encode() for said in asked for it in altered(said))):
            with contextlib.closing(Asker(self.path)) as asker, logged():
                with contextlib.suppress(BlockingIOError):
                    asker.send(text.replace(b"\n", b" ") + b"\n")
                if follower.is_due(0x130) and follower.wanted:
                    follower.take(0x130, never)
                    follower.wait()
            self.settle(follower, text)

    def settle(self, follower: Snapshots, text: bytes) -> None:
        """Whoever asks is gone, and what is left is that."""
        with logged():
            follower.is_due(0x130)
            follower.wait()
        with contextlib.suppress(FileNotFoundError):
            os.unlink(self.folder + "/new.db")
        self.assertEqual((follower.hold.is_held, follower.client), (False, None), text[:100])
        self.assertLessEqual({*os.listdir(self.folder)}, {"copy.db", "copy.db.sock"}, text[:100])

    def test_what_is_said_of_a_hold(self) -> None:
        follower = snapshots_of(self, self.path)
        said = ({"point": "0/200"}, {"tables": [5]}, {"ends": True})
        for text in (*TEXTS, *(it.encode() for fields in said for it in altered(fields))):
            for is_copied in (False, True):
                asked = {"ask": "hold", "into": self.folder + "/new.db", "seconds": 5.0}
                with asking(self.path, **asked, repair=True) as asker, logged():
                    follower.is_due(0x130)
                    if is_copied:
                        follower.hold.go(0x200)
                        follower.hold.is_copied = True
                    with contextlib.suppress(BlockingIOError):
                        asker.send(text.replace(b"\n", b" ") + b"\n")
                    follower.is_due(0x130)
                self.settle(follower, text)

    def test_a_status_file(self) -> None:
        right = {
            "state": "following",
            "heartbeat": "2026-01-01T00:00:00Z",
            "lag_bytes": 5,
            "lag_seconds": 1.5,
            "position": "0/1",
            "wal_status": "reserved",
            "found": {"values": "0/1"},
            "tables_error": "x",
            "tables_missing": "x",
            "tables_aside": {"t": "since 0/1"},
            "readers": {"redis": {"lsn": "0/1", "lag_bytes": 5, "still_seconds": 90}},
            "sinks": {"redis://h": "ended"},
            "filter_losses": 3,
            "store": "s",
            "connector_version": "0",
            "last_error": "y",
        }
        for text in (*TEXTS, *(it.encode() for it in altered(right))):
            path = self.put(".status", text)
            with mock.patch("sys.stdout"), logged() as told:
                status = main(
                    [
                        "status",
                        "--status-file",
                        path,
                        "--max-lag",
                        "5s",
                        "--max-lag",
                        "5MB",
                    ]
                )
            self.assertNotEqual(status, BUG, (text[:100], told))
        os.unlink(path)
        os.mkfifo(path)
        with mock.patch("sys.stdout"):
            self.assertEqual(main(["status", "--status-file", path]), FILE)
