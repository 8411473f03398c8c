"""The texts of a store's tables stand in two crates: one makes the tables, and the other knows a
file by them."""

import re
import unittest

from built import TOP

MADE, KNOWN = "crates/pgtables/src/schema.rt", "crates/pgopening/src/listed.rt"


def texts(path: str) -> list[str]:
    """The statements that make tables, in their order."""
    source = (TOP / path).read_text(encoding="utf-8")
    strings = re.findall(r'"(CREATE TABLE (?:[^"\\]|\\.)*)"', source)
    return [it.strip() for string in strings for it in string.split(";") if it.strip()]


class Schema(unittest.TestCase):
    def test_the_tables_that_are_made_are_those_that_are_known(self) -> None:
        made = texts(MADE)
        self.assertEqual([it.split()[2] for it in made], ["rel", "held", "pos"])
        self.assertEqual(
            texts(KNOWN),
            made,
            "a store that is made would be opened by way of SQL, with all rows in memory",
        )


if __name__ == "__main__":
    unittest.main()
