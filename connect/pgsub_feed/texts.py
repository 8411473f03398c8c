"""LSNs, SQL names, the text of values, and texts of the command line."""

# How many characters of a text of somebody else are kept, wherever it is shown.
LONGEST = 2000
# The settings of a session on which the text of a value depends: those of PostgreSQL's own
# subscriptions, and all else on which a type's output depends, so that equal values have equal
# texts in every session.
PRINTING = {
    "search_path": "",
    "datestyle": "ISO",
    "intervalstyle": "postgres",
    "extra_float_digits": "3",
    "bytea_output": "hex",
    "timezone": "UTC",
    "lc_monetary": "C",
    "quote_all_identifiers": "off",
    "xmlbinary": "base64",
}


def parse_lsn(text: str) -> int:
    """The LSN that a text as `16/B374D848` is. A ValueError says that it is none."""
    high, _, low = text.partition("/")
    are_short = 1 <= len(high) <= 8 and 1 <= len(low) <= 8
    if not are_short or any(it not in "0123456789abcdefABCDEF" for it in high + low):
        raise ValueError(f"{text!r} is not an LSN, as 16/B374D848")
    return (int(high, 16) << 32) + int(low, 16)


def lsn_text(lsn: int) -> str:
    return f"{lsn >> 32:X}/{lsn & 0xFFFFFFFF:X}"


def literal(text: str) -> str:
    """A string constant of SQL, whatever standard_conforming_strings says."""
    quoted = text.replace("'", "''")
    return " E'" + quoted.replace("\\", "\\\\") + "'" if "\\" in text else "'" + quoted + "'"


def replication_literal(text: str) -> str:
    """A string constant of a replication command, where backslashes are plain characters."""
    return "'" + text.replace("'", "''") + "'"


def identifier(text: str) -> str:
    return '"' + text.replace('"', '""') + '"'


def counted(number: int, thing: str) -> str:
    return f"{number} {thing}" if number == 1 else f"{number} {thing}s"


def duration_text(seconds: float) -> str:
    """A time by its two largest units."""
    whole = max(round(seconds), 0)
    for unit, more, length, part in (("h", "min", 3600, 60), ("min", "s", 60, 1)):
        if whole >= length:
            return f"{whole // length} {unit} {whole % length // part} {more}"
    return f"{whole} s"


def is_utf_8(text: str) -> bool:
    """Whether a word of the command line was UTF-8: other bytes have become surrogates."""
    try:
        text.encode()
    except UnicodeEncodeError:
        return False
    return True


def is_plain_name(text: str) -> bool:
    """Whether a file may have this name: one that isn't hidden, nor being written (`.new`)."""
    is_other = text.startswith(".") or text.endswith(".new")
    return not (not text or is_other or "/" in text or "\0" in text)


def shortened(text: str) -> str:
    """A text of somebody else as it is shown: its beginning where it is long."""
    return text if len(text) <= LONGEST else f"{text[:LONGEST]}.. ({len(text)} characters)"


def said_text(said: bytes) -> str:
    """What a server has said, as it is shown."""
    # (what isn't shown isn't decoded)
    text = said[: 4 * LONGEST].decode(errors="replace").strip()
    is_whole = len(said) <= 4 * LONGEST and len(text) <= LONGEST
    return text if is_whole else f"{text[:LONGEST]}.. ({len(said)} bytes)"
