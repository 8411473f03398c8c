"""Wide lines of the crates are found."""

import tempfile
import unittest
from pathlib import Path

from widths import wide_lines, wrong_widths

WIDE = "x" * 101


class Widths(unittest.TestCase):
    def test_columns_and_no_bytes_are_counted(self) -> None:
        self.assertEqual(wide_lines(".rt", f"{'→' * 100}\n{WIDE}\n\n// {WIDE}"), [2, 4])

    def test_definitions_may_be_wider_than_comments_and_imports(self) -> None:
        text = f"{WIDE}\n  -- {WIDE}\nuse {WIDE}\n{'→' * 140}\n{'→' * 141}"
        self.assertEqual(wide_lines(".antt", text), [2, 3, 5])

    def test_text_in_quotes_and_attributes_are_left_out(self) -> None:
        self.assertEqual(wide_lines(".rt", f'    "{WIDE}",\n#[tactic({WIDE})]'), [])

    def test_sources_alone_are_read(self) -> None:
        with tempfile.TemporaryDirectory() as room:
            for name in ("low/src/lib.rt", "low/specs/A/B.antt", "low/out/lib.rt", "low/src/notes"):
                file = Path(room, name)
                file.parent.mkdir(parents=True, exist_ok=True)
                file.write_text(f"one\n-- {WIDE}\n")
            wrong = [it.partition(": ")[0] for it in wrong_widths(Path(room))]
            self.assertEqual(wrong, ["low/src/lib.rt:2", "low/specs/A/B.antt:2"])


if __name__ == "__main__":
    unittest.main()
