"""Lines on standard error."""

from __future__ import annotations

import contextlib
import io
import re
import unittest
from unittest import mock

from pgsub_feed import log


def said(level: str, text: str) -> list[str]:
    with contextlib.redirect_stderr(io.StringIO()) as stderr:
        log.line(level, text)
    return stderr.getvalue().splitlines()


class Lines(unittest.TestCase):
    def test_time_and_level(self) -> None:
        for level, call in (("info", log.info), ("warning", log.warning), ("error", log.error)):
            with contextlib.redirect_stderr(io.StringIO()) as stderr:
                call("a text")
            head = r"\d{4}-\d\d-\d\dT\d\d:\d\d:\d\dZ pgsub-connect: "
            self.assertRegex(stderr.getvalue(), f"^{head}{level}: a text\n$")

    def test_a_text_cant_look_like_one_of_this_program(self) -> None:
        lines = said(
            "info",
            "server: x\n2026-11-25T09:00:00Z pgsub-connect: error: forged\r\x1b[2J\x9b\u202e\x7f",
        )
        self.assertEqual(len(lines), 2)
        for it in lines:
            self.assertRegex(it, r"^\S+ pgsub-connect: info: ")
            self.assertEqual(re.findall("[^ -~]", it), [])
        self.assertTrue(lines[1].endswith("error: forged\\x0d\\x1b[2J\\x9b\\u202e\\x7f"))

    def test_tabs_and_letters_stay_readable(self) -> None:
        self.assertEqual(log.escaped("a\tä 漢"), "a ä 漢")

    def test_nobody_reads(self) -> None:
        stream = mock.Mock()
        stream.write.side_effect = BrokenPipeError()
        with mock.patch("sys.stderr", stream):
            log.info("x")


if __name__ == "__main__":
    unittest.main()
