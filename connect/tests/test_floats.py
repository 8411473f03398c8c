"""Numbers of floating point, as servers 15 and 18 print them."""

from __future__ import annotations

import math
import struct
import unittest

from pgsub_feed.tables.floats import printed_float, stored_float

# (Some lie at the bound of what is rounded to them, where Python prints fewer digits.)
DOUBLES = {
    9.999999999999999e22: "9.999999999999999e+22",
    1.25e22: "1.2499999999999999e+22",
    5e22: "4.9999999999999996e+22",
    7e22: "7.0000000000000004e+22",
    1e15: "1e+15",
    999999999999999.0: "999999999999999",
    0.0001: "0.0001",
    1e-05: "1e-05",
    5e-324: "5e-324",
    0.1: "0.1",
    1 / 3: "0.3333333333333333",
    1.7976931348623157e308: "1.7976931348623157e+308",
    123456.5: "123456.5",
    -1.5: "-1.5",
    2.0**60: "1.152921504606847e+18",
}
SINGLES = {
    33950328.0: "3.3950328e+07",
    34670592.0: "3.4670592e+07",
    2.0**-96: "1.2621775e-29",
    2.0**86: "7.7371252e+25",
    2.0**87: "1.5474251e+26",
    2.0**90: "1.2379401e+27",
    2.0**-149: "1e-45",
    0.1: "0.1",
    1e6: "1e+06",
    999999.0: "999999",
    3.4028234663852886e38: "3.4028235e+38",
    16777216.0: "1.6777216e+07",
    2.0**-126: "1.1754944e-38",
}


class Floats(unittest.TestCase):
    def test_of_8_bytes(self) -> None:
        for value, text in DOUBLES.items():
            self.assertEqual(printed_float(value, False), text)
            self.assertEqual(struct.pack(">d", float(text)), struct.pack(">d", value))

    def test_of_4_bytes(self) -> None:
        for value, text in SINGLES.items():
            self.assertEqual(printed_float(value, True), text)
            # (a table of SQLite has the number of 8 bytes that the text gives)
            self.assertEqual(printed_float(float(text), True), text)

    def test_what_is_stored_of_4_bytes(self) -> None:
        """The number of the server's digits, and that of its bytes; and none beside them."""
        for value, text in SINGLES.items():
            exact = struct.unpack(">f", struct.pack(">f", value))[0]
            for sign, minus in ((1, ""), (-1, "-")):
                for stored in (float(text), exact):
                    self.assertEqual(stored_float(sign * stored, True), minus + text)
                for other in (
                    math.nextafter(it, to) for it in (float(text), exact) for to in (0, math.inf)
                ):
                    if other not in (float(text), exact):
                        self.assertNotEqual(
                            stored_float(sign * other, True), minus + text, repr(other)
                        )
                        self.assertEqual(float(stored_float(sign * other, True)), sign * other)

    def test_what_no_server_prints(self) -> None:
        for is_short in (False, True):
            self.assertEqual(stored_float(math.nan, is_short), "nan")
        self.assertEqual([stored_float(1e300, it) for it in (False, True)], ["1e+300", "1e+300"])
        self.assertEqual(stored_float(-0.0, True), "-0")

    def test_infinities(self) -> None:
        for is_short in (False, True):
            for text in ("Infinity", "-Infinity"):
                self.assertEqual(printed_float(float(text), is_short), text)
                self.assertEqual(stored_float(float(text), is_short), text)

    def test_zeros(self) -> None:
        for is_short in (False, True):
            self.assertEqual([printed_float(it, is_short) for it in (0.0, -0.0)], ["0", "-0"])

    def test_they_give_the_number_again(self) -> None:
        for power in range(-1074, 1024, 7):
            for value in (
                math.ldexp(1, power),
                math.nextafter(math.ldexp(1, power), 0),
                math.nextafter(math.ldexp(1, power), math.inf),
            ):
                self.assertEqual(float(printed_float(value, False)), value)


if __name__ == "__main__":
    unittest.main()
