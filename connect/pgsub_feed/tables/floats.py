"""Numbers of floating point as the server prints them: the shortest digits within what is rounded
to the number, and not at its bound. (src/common/d2s.c and f2s.c of PostgreSQL; Python takes a
bound, too: 1e+23 for 9.999999999999999e+22.)"""

import contextlib
import math
import struct
from decimal import Decimal
from fractions import Fraction

# Below these numbers no bound has as few digits as a number: they are odd ones times 5 ** n.
WHOLE, SHORT_WHOLE = float(1 << 52), float(1 << 22)
# Of both types: the bits of a significand, the least exponent, and how many digits tell all.
DOUBLE, SINGLE = (53, -1074, 17), (24, -149, 9)


def printed_float(value: float, is_short: bool) -> str:
    """With an exponent below -4, and from 15 on, or 6 where it has four bytes (`is_short`)."""
    if math.isinf(value):
        return "Infinity" if value > 0 else "-Infinity"
    value = struct.unpack(">f", struct.pack(">f", value))[0] if is_short else value
    sign, digits, last = (
        Decimal(shortest(value) if is_short else repr(value)).normalize().as_tuple()
    )
    assert isinstance(last, int)
    text = "".join(map(str, digits))
    if needs_care(abs(value), is_short) and is_other(
        abs(value), Fraction(int(text)) * Fraction(10) ** last, is_short
    ):
        text, last = within(abs(value), is_short)
    return "-" * sign + placed(text, last, 6 if is_short else 15)


def stored_float(value: float, is_short: bool) -> str:
    """A number of 8 bytes as the server prints that which it is stored for, from its digits or 4
    bytes. Any other, which no server has sent, as Python prints it."""
    if math.isnan(value):
        return repr(value)
    try:
        text = printed_float(value, is_short)
        exact = struct.unpack(">f", struct.pack(">f", value))[0] if is_short else value
    except OverflowError:
        return repr(value)
    return text if value in (exact, float(text)) else repr(value)


def stored_numeric(value: float, scale: int) -> str:
    """A numeric with so many digits behind the point as the server prints it; one below none ends
    in as many zeros. NaN is stored as Infinity. Any other number, which no such numeric is stored
    as, as Python prints it."""
    if math.isinf(value):
        return "NaN" if value > 0 else repr(value)
    text = f"{value:.{scale}f}" if scale >= 0 else str(int(Decimal(repr(value))))
    return text if float(text) == value else repr(value)


def placed(text: str, last: int, most: int) -> str:
    """Digits, of which the last one counts 10 to the power of `last`."""
    power = len(text) + last - 1
    if not -5 < power < most:
        return f"{text[0]}{'.' * (len(text) > 1)}{text[1:]}e{'-' if power < 0 else '+'}{abs(power):02d}"
    if power < 0:
        return "0." + "0" * (-power - 1) + text
    text = text.ljust(power + 1, "0")
    return text[: power + 1] + "." * (len(text) > power + 1) + text[power + 1 :]


def shortest(value: float) -> str:
    """The shortest digits that are rounded to a number of 4 bytes."""
    packed = struct.pack(">f", value)
    for digits in range(1, 9):
        text = f"{value:.{digits}g}"
        with contextlib.suppress(OverflowError):
            if struct.pack(">f", float(text)) == packed:
                return text
    return f"{value:.9g}"


def bounds(value: float, is_short: bool) -> tuple[Fraction, Fraction]:
    """Between which numbers all are rounded to a positive one."""
    bits, least, _ = SINGLE if is_short else DOUBLE
    significand, exponent = math.frexp(value)
    step = Fraction(2) ** max(exponent - bits, least)
    # (below a power of two numbers are closer)
    below = step / 2 if significand == 0.5 and exponent - bits > least else step
    exact = Fraction(value)
    return exact - below / 2, exact + step / 2


def needs_care(value: float, is_short: bool) -> bool:
    """Whether Python's digits may be others. (A power of two has one closer bound.)"""
    return value >= (SHORT_WHOLE if is_short else WHOLE) or is_short and math.frexp(value)[0] == 0.5


def is_other(value: float, found: Fraction, is_short: bool) -> bool:
    """Whether digits aren't those that the server prints."""
    return is_short and math.frexp(value)[0] == 0.5 or found in bounds(value, is_short)


def within(value: float, is_short: bool) -> tuple[str, int]:
    """The fewest digits between the bounds of a positive number, and of those the closest ones."""
    low, high = bounds(value, is_short)
    exact = Fraction(value)
    power = Decimal(value).adjusted()
    most = (SINGLE if is_short else DOUBLE)[2]
    for count in range(1, most + 1):
        unit = Fraction(10) ** (power - count + 1)
        whole = int(exact / unit)
        if found := [it for it in (whole, whole + 1) if low < it * unit < high]:
            best = min(found, key=lambda it: (abs(it * unit - exact), it % 2))
            text = str(best).rstrip("0")
            return text, power - count + 1 + len(str(best)) - len(text)
    raise AssertionError(value)
