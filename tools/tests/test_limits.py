"""Limits that two programs know are the same."""

from __future__ import annotations

import re
import unittest

from built import TOP


def number_in(path: str, pattern: str) -> int:
    found = re.search(pattern, (TOP / path).read_text(encoding="utf-8"))
    assert found, path
    return int(found[1])


class Limits(unittest.TestCase):
    def test_open_transactions(self) -> None:
        """The connector names the program's."""
        own = number_in("crates/pgfilespools/src/file_spools.rt", r"MOST_OPEN: usize = ([0-9_]+);")
        path = "connect/pgsub_connect/stream/memory_limit.py"
        self.assertEqual(number_in(path, r"\nMOST_OPEN = ([0-9_]+)\n"), own)

    def test_pieces(self) -> None:
        """The model of `follow` reads as much at once as the program does, as what watches before
        it does."""
        own = number_in("crates/pgfollow/src/live.rt", r"PIECE_LEN: usize = ([0-9_]+);")
        for path in ("crates/pgrules/src/guarded.rt", "crates/pgpast/src/comparing.rt"):
            self.assertEqual(number_in(path, r"ROOM_LEN: usize = ([0-9_]+);"), own)
        bits = number_in("tools/histories_model/followed.py", r"\nPIECE = 1 << ([0-9]+)\n")
        self.assertEqual(1 << bits, own)


if __name__ == "__main__":
    unittest.main()
