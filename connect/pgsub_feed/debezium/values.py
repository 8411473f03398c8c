"""Numbers, bits and bytes of the server's texts as Kafka Connect's JSON has them, and dates, times
and intervals as numbers, and as texts of ISO 8601.

The server prints them by `datestyle = ISO`, `intervalstyle = postgres` and `timezone = UTC`. Years
are counted in the proleptic Gregorian calendar, in which the year before 1 is 0, as in ISO 8601.
"""

import base64
import datetime
import math
import re
import struct
from collections.abc import Callable
from decimal import Decimal, InvalidOperation

from ..tables.values import read_bytea

MONEY = re.compile(r"(-?)\$?(\d[\d,]*(?:\.\d+)?)")
POINT = re.compile(r"\(([^,()]+),([^,()]+)\)")
Read = Callable[[str], object]


def whole(least: int, most: int) -> Read:
    """What reads a whole number within these bounds."""
    return lambda text: bounded(int(text), least, most)


def signed(bits: int) -> Read:
    return whole(-(1 << bits - 1), (1 << bits - 1) - 1)


def read_float(text: str) -> float | str:
    """A number of floating point. NaN and infinities are texts, as Connect writes them."""
    number = float(text)
    if math.isfinite(number):
        return number
    return "NaN" if math.isnan(number) else "Infinity" if number > 0 else "-Infinity"


def based(content: bytes) -> str:
    return base64.b64encode(content).decode()


def integer_bytes(number: int) -> str:
    """A whole number as Java has it: as few bytes in two's complement, the highest first."""
    size = (number if number >= 0 else ~number).bit_length() // 8 + 1
    return based(number.to_bytes(size, "big", signed=True))


def decimal_of(text: str) -> Decimal:
    try:
        found = Decimal(text)
    except InvalidOperation:
        raise ValueError(f"{text!r} is no number") from None
    if not found.is_finite():
        raise ValueError(f"{text} is no decimal number")
    return found


def unscaled(number: Decimal, scale: int) -> int:
    """A number in units of its last digit, of so many behind the point."""
    sign, digits, exponent = number.as_tuple()
    assert isinstance(exponent, int)
    # (by Decimal, since Python's own int takes no text of thousands of digits)
    found, shift = int(Decimal((0, digits, 0))), exponent + scale
    if shift < 0:
        found, rest = divmod(found, 10**-shift)
        if rest:
            raise ValueError(f"it has more than {scale} digits behind the point")
    else:
        found *= 10**shift
    return -found if sign else found


def scaled(scale: int) -> Read:
    """What reads a number as the bytes of one with so many digits behind the point."""
    return lambda text: integer_bytes(unscaled(decimal_of(text), scale))


def variable_scale(text: str) -> dict[str, object]:
    """A number with its own scale."""
    number = decimal_of(text)
    exponent = number.as_tuple().exponent
    assert isinstance(exponent, int)
    scale = max(0, -exponent)
    return {"scale": scale, "value": integer_bytes(unscaled(number, scale))}


def plain_money(text: str) -> str:
    """An amount without its sign of a currency, and without those between thousands."""
    found = fitting(MONEY, text, "is no amount of money")
    return found[1] + found[2].replace(",", "")


def of_money(read: Read) -> Read:
    return lambda text: read(plain_money(text))


def bits_of(length: int | None) -> Read:
    """What reads bits as bytes, the lowest first: as many as the column's length takes, or the
    value's own where the column has none."""

    def read(text: str) -> str:
        size = (len(text) if length is None else length) + 7 >> 3
        return based(int("0" + text, 2).to_bytes(size, "little"))

    return read


def read_bit(text: str) -> bool:
    return {"1": True, "0": False}[text]


def bytes_as(form: Callable[[bytes], str]) -> Read:
    return lambda text: form(read_bytea(text.encode()))


def read_point(text: str) -> dict[str, object]:
    """A point, also as the well-known binary form of geometry."""
    found = fitting(POINT, text, "is no point")
    x, y = float(found[1]), float(found[2])
    binary = struct.pack("<BIdd", 1, 1, x, y)
    return {
        "x": read_float(found[1]),
        "y": read_float(found[2]),
        "wkb": based(binary),
        "srid": None,
    }


SECOND, DAY = 10**6, 86400 * 10**6
# A month has 365.25 / 12 days where an interval is one number.
MONTH = 2629800 * SECOND
LEAST, MOST = -(1 << 63), (1 << 63) - 1
LEAST_DAY, MOST_DAY = -(1 << 31), (1 << 31) - 1
# The days of 400 years, after which the calendar comes again; and the ordinal of 1970-01-01.
ERA, EPOCH = 146097, datetime.date(1970, 1, 1).toordinal()
# What Debezium has in place of infinite times, in microseconds.
INFINITE = {"infinity": 9223372036825200000, "-infinity": -9223372036832400000}
INFINITE_DAYS = {"infinity": MOST_DAY, "-infinity": LEAST_DAY}
DATE = re.compile(r"(\d{4,})-(\d\d)-(\d\d)( BC)?")
TIME = re.compile(r"(\d\d):(\d\d):(\d\d)(?:\.(\d{1,6}))?")
OFFSET = re.compile(r"([+-])(\d\d)(?::(\d\d))?(?::(\d\d))?")
MOMENT = re.compile(r"(\d{4,}-\d\d-\d\d) (\d\d:\d\d:\d\d(?:\.\d{1,6})?)([+-][\d:]+)?( BC)?")
PART = re.compile(r"([+-]?\d+) (year|mon|day)s?")
CLOCK = re.compile(r"([+-])?(\d+):(\d\d):(\d\d)(?:\.(\d{1,6}))?")


def bounded(number: int, least: int = LEAST, most: int = MOST) -> int:
    if not least <= number <= most:
        raise ValueError(f"{number} isn't from {least} to {most}")
    return number


def fitting(
    pattern: re.Pattern[str], text: str, wrong: str = "isn't what the server prints"
) -> re.Match[str]:
    found = pattern.fullmatch(text)
    if not found:
        raise ValueError(f"{text!r} {wrong}")
    return found


def days_of(year: int, month: int, day: int) -> int:
    """The days from 1970 on."""
    eras, years = divmod(year - 1, 400)
    return ERA * eras + datetime.date(years + 1, month, day).toordinal() - EPOCH


def date_of(days: int) -> tuple[int, int, int]:
    """Year, month and day."""
    eras, rest = divmod(days + EPOCH - 1, ERA)
    found = datetime.date.fromordinal(rest + 1)
    return 400 * eras + found.year, found.month, found.day


def read_days(text: str) -> int:
    """A date's days from 1970 on."""
    if text in INFINITE_DAYS:
        return INFINITE_DAYS[text]
    year, month, day, before = fitting(DATE, text).groups()
    found = days_of(1 - int(year) if before else int(year), int(month), int(day))
    return bounded(found, LEAST_DAY, MOST_DAY)


def micros_of(hours: str, minutes: str | None, seconds: str | None, part: str | None = None) -> int:
    """The microseconds of hours, minutes, seconds and what stands behind their point."""
    whole = (int(hours) * 60 + int(minutes or 0)) * 60 + int(seconds or 0)
    return whole * SECOND + int((part or "").ljust(6, "0"))


def read_clock(text: str) -> int:
    """A time's microseconds from midnight on."""
    return micros_of(*fitting(TIME, text).groups())


def read_offset(text: str) -> int:
    """The microseconds by which a zone is ahead."""
    sign, *parts = fitting(OFFSET, text).groups()
    found = micros_of(*parts)
    return -found if sign == "-" else found


def read_moment(text: str) -> int:
    """The microseconds of a timestamp from 1970 on, whatever they are."""
    date, time, offset, before = fitting(MOMENT, text).groups()
    found = read_days(date + (before or "")) * DAY + read_clock(time)
    return found - (read_offset(offset) if offset else 0)


def read_micros(text: str) -> int:
    """Those that a number of eight bytes has."""
    return INFINITE[text] if text in INFINITE else bounded(read_moment(text))


def clock_text(micros: int) -> str:
    seconds, part = divmod(micros, SECOND)
    text = f"{seconds // 3600:02}:{seconds // 60 % 60:02}:{seconds % 60:02}"
    return f"{text}.{part:06}".rstrip("0") if part else text


def zoned_moment(text: str) -> str:
    """A timestamp with a time zone as a text in UTC."""
    if text in INFINITE:
        return text
    days, micros = divmod(read_moment(text), DAY)
    year, month, day = date_of(days)
    sign = "+" if year > 9999 else "-" if year < 0 else ""
    return f"{sign}{abs(year):04}-{month:02}-{day:02}T{clock_text(micros)}Z"


def zoned_clock(text: str) -> str:
    """A time with a time zone as a text in UTC."""
    at = max(text.rfind("+"), text.rfind("-"))
    if at < 0:
        raise ValueError(f"{text!r} has no zone")
    micros = read_clock(text[:at]) - read_offset(text[at:])
    return clock_text(micros if 0 <= micros <= DAY else micros % DAY) + "Z"


def read_interval(text: str) -> tuple[int, int, int]:
    """The months, days and microseconds of an interval."""
    found = {"year": 0, "mon": 0, "day": 0}
    rest = text
    while part := PART.match(rest):
        found[part[2]] += int(part[1])
        rest = rest[part.end() :].lstrip(" ")
    micros = 0
    if rest or rest == text:
        sign, *parts = fitting(CLOCK, rest).groups()
        micros = micros_of(*parts)
        micros = -micros if sign == "-" else micros
    return 12 * found["year"] + found["mon"], found["day"], micros


def interval_micros(text: str) -> int:
    months, days, micros = read_interval(text)
    return bounded(months * MONTH + days * DAY + micros)


def interval_text(text: str) -> str:
    """An interval as `P1Y2M3DT4H5M6.78S`. Each part has its own sign."""
    months, days, micros = read_interval(text)
    sign = "-" if micros < 0 else ""
    seconds, part = divmod(abs(micros), SECOND)
    fraction = f".{part:06}".rstrip("0") if part else ""
    hours, minutes = seconds // 3600, seconds // 60 % 60
    years = abs(months) // 12 * (-1 if months < 0 else 1)
    clock = "".join(
        f"{sign if it.strip('0.') else ''}{it}{unit}"
        for it, unit in ((f"{hours}", "H"), (f"{minutes}", "M"), (f"{seconds % 60}{fraction}", "S"))
    )
    return f"P{years}Y{months - 12 * years}M{days}DT{clock}"
