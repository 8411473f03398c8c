"""Stores that SQL text has made or changed, and what the program makes of each: it takes the file
and goes on with it, or refuses it.

The statements are SQLite's own, over the tables of docs/ARCHITECTURE.md, "The file of a store".
Numbers in them are decimal: 100 is the letter d, 102 f, 110 n.
"""

from __future__ import annotations

import enum
from collections.abc import Iterator
from dataclasses import dataclass, replace

from .contents import TABLES
from .named import Cell, Change, Commit, HeldRow, State, Table

REL, HELD, POS = TABLES["rel"], TABLES["held"], TABLES["pos"]
# the same tables, as somebody else may write them
OTHER_WORDS = {
    "rel": "CREATE TABLE rel (\n  oid integer primary key not null,\n  nsp text not null,\n  name text not null,\n"
    "  letter integer not null,\n  cols blob not null\n) strict",
    "held": "CREATE TABLE held (\n  oid integer not null,\n  ident blob not null,\n  body blob not null,\n  copies integer not null,\n"
    "  primary key (oid, ident)\n) strict",
    "pos": "CREATE TABLE pos (\n  id integer primary key not null check (id = 0),\n  lsn blob not null\n) strict",
}

NOT_A_STORE, REFUSED = "store 10 NotAStore", "store 8 Refused"
GREATEST = 2**64 - 1

T = Table(16384, "public", "t", "d", ("id",), ("v",))
# tables without a usable key
F = Table(16386, "public", "f", "f", ("v",))
N = Table(16387, "public", "n", "n", (), ("v",))
FIRST, LATER = Table(16384, "", "first", "f", (), ("v",)), Table(
    16385, "public", "later", "d", ("k",)
)
LAST = Table(4294967295, "", "", "f")


def held(table: Table, *cells: Cell, copies: int = 1) -> HeldRow:
    return HeldRow(table, cells, copies)


def inserted(table: Table, *cells: Cell) -> Change:
    return Change("I", table, cells)


def updated(table: Table, *cells: Cell) -> Change:
    return Change("U", table, cells)


def deleted(table: Table, *cells: Cell) -> Change:
    return Change("D", table, cells)


FILLING = (inserted(T, "1", "a"), inserted(F, "x"), inserted(F, "x"), inserted(N, b"y"))
FILLED = State((T, F, N), (held(T, "1", "a"), held(F, "x", copies=2), held(N, b"y")), 0x130)
# a change of a row, a copy less of one, and a new one
FURTHER = (updated(T, "1", "b"), deleted(F, "x"), inserted(F, "y"))


class Start(enum.Enum):
    """What the statements find."""

    NO_FILE = "no file"
    NO_TABLES = "a database without tables"
    EMPTY = "the tables of a store, which nobody has filled"
    FILLED = "a store with the rows of FILLED"


@dataclass(frozen=True)
class Taken:
    """A store that holds this, and takes commits; each leads to another state."""

    state: State
    steps: tuple[tuple[Commit, State], ...]


@dataclass(frozen=True)
class Case:
    """Statements over what they find, and what the program makes of it: a store, or the fault with
    which it refuses the file."""

    group: str
    change: str
    outcome: Taken | str
    start: Start = Start.FILLED
    told: str = ""
    # a statement that SQLite rejects
    rejected: str = ""

    @property
    def name(self) -> str:
        return f"{self.group}: {self.told or self.change or 'as it is'}"


def goes_on(rows: tuple[HeldRow, ...], then: tuple[HeldRow, ...]) -> Taken:
    """A store with these rows, and those to which FURTHER leads."""
    return Taken(
        replace(FILLED, rows=rows), ((Commit(0x230, FURTHER), State(FILLED.tables, then, 0x230)),)
    )


def begins(state: State) -> Taken:
    """A store without rows, which a further commit fills."""
    end = state.position + 0x130
    return Taken(state, ((Commit(end, FILLING), replace(FILLED, position=end)),))


def stays(state: State) -> Taken:
    """A store to which each commit is a repeat."""
    return Taken(state, ((Commit(0x230, FURTHER), state),))


BINARY = held(N, b"y")
SOUND = goes_on(FILLED.rows, (held(T, "1", "b"), held(F, "x"), held(F, "y"), BINARY))

# What the program itself makes.
MADE = (
    (
        "a position alone",
        Taken(
            State(),
            ((Commit(0x130), State(position=0x130)), (Commit(0x230), State(position=0x230))),
        ),
    ),
    (
        "rows, and then a position alone",
        Taken(
            State(),
            (
                (
                    Commit(0x0100_0000_0000_0130, FILLING),
                    replace(FILLED, position=0x0100_0000_0000_0130),
                ),
                (Commit(0xFFFF_FFFF_FFFF_FF00), replace(FILLED, position=0xFFFF_FFFF_FFFF_FF00)),
            ),
        ),
    ),
)


def but(text: str, old: str, new: str) -> str:
    """A text with one place changed."""
    before, found, behind = text.partition(old)
    if not found:
        raise ValueError(f"{old} isn't in {text}")
    return before + new + behind


# Empty tables that others make, and whether they are those of a store.
SCHEMAS: tuple[tuple[str, tuple[str, ...], bool], ...] = (
    ("the tables of a store", (REL, HELD, POS), True),
    # Without a table, which is made where nothing is stored, and with one more.
    ("no table for the position", (REL, HELD), True),
    ("no table", (), True),
    ("a table more", (REL, HELD, POS, "CREATE TABLE more (id INTEGER PRIMARY KEY)"), False),
    # A column that may be null, one of another type, a wider identity, no STRICT, and another test
    # of the position.
    ("a column that may be null", (REL, but(HELD, "body BLOB NOT NULL", "body BLOB"), POS), False),
    ("a column of another type", (REL, but(HELD, "body BLOB", "body TEXT"), POS), False),
    (
        "a wider identity",
        (REL, but(HELD, "KEY (oid, ident)", "KEY (oid, ident, body)"), POS),
        False,
    ),
    ("a table that isn't STRICT", (REL, but(HELD, " STRICT", ""), POS), False),
    ("another test of the position", (REL, HELD, but(POS, "id = 0", "id = 1")), False),
    # An index, a view and a trigger.
    ("an index", (REL, HELD, POS, "CREATE INDEX by_body ON held (body)"), False),
    ("a view", (REL, HELD, POS, "CREATE VIEW names AS SELECT name FROM rel"), False),
    (
        "a trigger",
        (REL, HELD, POS, "CREATE TRIGGER gone AFTER DELETE ON held BEGIN DELETE FROM rel; END"),
        False,
    ),
    # A table of a store's name with other columns, the tables in another order, and another
    # program's.
    (
        "definitions without columns",
        ("CREATE TABLE rel (oid INTEGER PRIMARY KEY)", HELD, POS),
        False,
    ),
    ("another order", (HELD, POS, REL), False),
    (
        "another program's",
        ("PRAGMA journal_mode = DELETE", "CREATE TABLE note (id INTEGER PRIMARY KEY, text TEXT)"),
        False,
    ),
)


def stored(
    oid: int = 16384,
    letter: int = 102,
    rows: tuple[tuple[int, str, int], ...] = ((16384, "78", 7),),
    lsn: str = "0000000000000130",
) -> str:
    """Statements that fill empty tables: with the table FIRST, with its rows, each by its OID, the
    digits of its text and its copies, and with a position. By themselves they make a store."""
    columns = FIRST.columns.hex()
    texts = [f"INSERT INTO rel VALUES ({oid}, '', 'first', {letter}, x'{columns}')"]
    for number, digits, copies in rows:
        body = f"000174{len(digits) // 2:08x}{digits}"
        texts.append(f"INSERT INTO held VALUES ({number}, x'{body}', x'{body}', {copies})")
    return "; ".join([*texts, f"INSERT INTO pos VALUES (0, x'{lsn}')"])


SEVEN = State((FIRST,), (held(FIRST, "x", copies=7),), 0x130)
LESS = Commit(0x230, (deleted(FIRST, "x"), inserted(FIRST, "y")))
SIX = State((FIRST,), (held(FIRST, "x", copies=6), held(FIRST, "y")), 0x230)

# What others fill the tables with: a store, but for what is told of it.
READ: tuple[tuple[str, str, Taken | str], ...] = (
    ("nothing", "", begins(State())),
    ("a definition", stored(rows=()), begins(replace(SEVEN, rows=()))),
    ("a definition and a row", stored(), Taken(SEVEN, ((LESS, SIX),))),
    (
        "definitions by falling OID",
        f"INSERT INTO rel VALUES (16385, 'public', 'later', 100, x'{LATER.columns.hex()}'); "
        "INSERT INTO held VALUES (16385, x'0001740000000131', x'0001740000000131', 1); " + stored(),
        Taken(
            replace(SEVEN, tables=(LATER, FIRST), rows=(*SEVEN.rows, held(LATER, "1"))),
            (
                (
                    Commit(0x230, (*LESS.changes, inserted(LATER, "2"))),
                    replace(
                        SIX,
                        tables=(LATER, FIRST),
                        rows=(*SIX.rows, held(LATER, "1"), held(LATER, "2")),
                    ),
                ),
            ),
        ),
    ),
    # The greatest numbers.
    (
        "the greatest OID and as many copies as can be",
        "INSERT INTO rel VALUES (4294967295, '', '', 102, x'0000'); INSERT INTO held VALUES (4294967295, x'0000', x'0000', 2147483647); "
        "INSERT INTO pos VALUES (0, x'0000000000000130')",
        Taken(
            State((LAST,), (held(LAST, copies=2147483647),), 0x130),
            (
                (
                    Commit(0x230, (deleted(LAST), deleted(LAST), inserted(LAST))),
                    State((LAST,), (held(LAST, copies=2147483646),), 0x230),
                ),
            ),
        ),
    ),
    (
        "the greatest position",
        stored(lsn="ffffffffffffffff"),
        stays(replace(SEVEN, position=GREATEST)),
    ),
    ("the greatest letter", stored(letter=4294967295, rows=()), NOT_A_STORE),
    # Numbers that are too large or below 0; some are those of a store in their last 32 bits.
    ("a definition's OID above all", stored(oid=4294967296, rows=()), NOT_A_STORE),
    ("a definition's OID below 0", stored(oid=-1, rows=()), NOT_A_STORE),
    ("a row's OID above all", stored(rows=((4294967296 + 16384, "78", 7),)), NOT_A_STORE),
    ("a row's OID below 0", stored(oid=4294967295, rows=((-1, "78", 7),)), NOT_A_STORE),
    ("a letter above all", stored(letter=4294967296, rows=()), NOT_A_STORE),
    ("a letter above all that ends as one", stored(letter=4294967296 + 102, rows=()), NOT_A_STORE),
    ("a letter below 0 that ends as one", stored(letter=-4294967296 + 102, rows=()), NOT_A_STORE),
    ("copies above all", stored(rows=((16384, "78", 4294967296),)), NOT_A_STORE),
    ("copies above all that end as one", stored(rows=((16384, "78", 4294967297),)), NOT_A_STORE),
    (
        "a second row of too many copies",
        stored(rows=((16384, "78", 1), (16384, "79", 2147483648))),
        NOT_A_STORE,
    ),
    # Eight bytes, seven, and nine.
    (
        "a position of eight bytes",
        "INSERT INTO pos VALUES (0, x'0000000000000130')",
        begins(State(position=0x130)),
    ),
    ("a position of seven bytes", "INSERT INTO pos VALUES (0, x'00000000000130')", NOT_A_STORE),
    ("a position of nine bytes", "INSERT INTO pos VALUES (0, x'000000000000000130')", NOT_A_STORE),
)

# What is left of a store with a definition, a row and a position once tables are dropped.
DROPS: tuple[tuple[str, Taken | str], ...] = (
    ("", Taken(SEVEN, ((LESS, SIX),))),
    ("DROP TABLE rel", NOT_A_STORE),
    ("DROP TABLE held", begins(replace(SEVEN, rows=()))),
    ("DROP TABLE pos", NOT_A_STORE),
    ("DROP TABLE held; DROP TABLE rel", begins(State(position=0x130))),
    ("DROP TABLE rel; DROP TABLE pos", NOT_A_STORE),
    ("DROP TABLE held; DROP TABLE pos", NOT_A_STORE),
    ("DROP TABLE held; DROP TABLE pos; DROP TABLE rel", begins(State())),
)

# What no store writes.
WRONG = (
    # Definitions: a letter of no replica identity, names with a zero byte, columns that can't be
    # decoded.
    "UPDATE rel SET letter = 120 WHERE oid = 16386",
    "UPDATE rel SET letter = 356 WHERE oid = 16386",
    "UPDATE rel SET name = CAST(x'6600' AS TEXT) WHERE oid = 16386",
    "UPDATE rel SET nsp = CAST(x'0066' AS TEXT) WHERE oid = 16386",
    "UPDATE rel SET cols = x'' WHERE oid = 16386",
    "UPDATE rel SET cols = x'000000' WHERE oid = 16386",
    # A row of no definition.
    "DELETE FROM rel WHERE oid = 16386",
    # Another identity, under a key and without one.
    "UPDATE held SET ident = x'0001740000000132' WHERE oid = 16384",
    "UPDATE held SET ident = x'0001740000000179' WHERE oid = 16386",
    # A byte after the row, a cell too many, a cell that wasn't sent, and a body that can't be
    # decoded.
    "UPDATE held SET body = x'000274000000013174000000016100' WHERE oid = 16384",
    "UPDATE held SET body = x'00037400000001317400000001616E' WHERE oid = 16384",
    "UPDATE held SET body = x'000274000000013175' WHERE oid = 16384",
    "UPDATE held SET body = x'' WHERE oid = 16384",
    # Copies.
    "UPDATE held SET copies = 0 WHERE oid = 16384",
    "UPDATE held SET copies = 2 WHERE oid = 16384",
    "UPDATE held SET copies = 0 WHERE oid = 16386",
    "UPDATE held SET copies = -1 WHERE oid = 16386",
    "UPDATE held SET copies = 2147483648 WHERE oid = 16386",
    # The position.
    "UPDATE pos SET lsn = x'00000000000130'",
    "DELETE FROM pos",
    "DELETE FROM held; DELETE FROM pos",
)


# What a store might have written.
RIGHT: tuple[tuple[str, Taken], ...] = (
    ("", SOUND),
    (
        "UPDATE held SET copies = 2147483647 WHERE oid = 16386",
        goes_on(
            (held(T, "1", "a"), held(F, "x", copies=2147483647), BINARY),
            (held(T, "1", "b"), held(F, "x", copies=2147483646), held(F, "y"), BINARY),
        ),
    ),
    (
        "UPDATE held SET ident = x'0001740000000179', body = x'0001740000000179' WHERE oid = 16386",
        goes_on(
            (held(T, "1", "a"), held(F, "y", copies=2), BINARY),
            (held(T, "1", "b"), held(F, "y", copies=3), BINARY),
        ),
    ),
    (
        "UPDATE held SET body = x'00027400000001316E' WHERE oid = 16384",
        goes_on(
            (held(T, "1", None), held(F, "x", copies=2), BINARY),
            (held(T, "1", "b"), held(F, "x"), held(F, "y"), BINARY),
        ),
    ),
    (
        "UPDATE rel SET letter = 110 WHERE oid = 16386",
        replace(SOUND, state=replace(FILLED, tables=(T, replace(F, letter="n"), N))),
    ),
    ("UPDATE pos SET lsn = x'FFFFFFFFFFFFFFFF'", stays(replace(FILLED, position=GREATEST))),
    ("DELETE FROM held", goes_on((), (held(F, "y"),))),
)

# Tables that are dropped or emptied.
DROPPED: tuple[tuple[str, Taken | str], ...] = (
    ("DROP TABLE held", begins(replace(FILLED, rows=()))),
    ("DROP TABLE rel; DROP TABLE held", begins(State(position=0x130))),
    ("DELETE FROM held; DROP TABLE rel", begins(State(position=0x130))),
    ("DROP TABLE rel; DROP TABLE held; DROP TABLE pos", begins(State())),
    ("DELETE FROM held; DELETE FROM rel; DROP TABLE pos", begins(State())),
    ("DELETE FROM held; DROP TABLE rel; DROP TABLE pos", begins(State())),
    ("DELETE FROM rel; DROP TABLE held; DROP TABLE pos", begins(State())),
    ("DELETE FROM pos; DROP TABLE rel; DROP TABLE held", begins(State())),
    ("DELETE FROM held; DELETE FROM rel; DELETE FROM pos", begins(State())),
    # Rows without their definitions, and rows or definitions without a position.
    ("DROP TABLE rel", NOT_A_STORE),
    ("DROP TABLE pos", NOT_A_STORE),
    ("DROP TABLE rel; DROP TABLE pos", NOT_A_STORE),
    ("DROP TABLE held; DROP TABLE pos", NOT_A_STORE),
    ("DROP TABLE held; DELETE FROM pos", NOT_A_STORE),
    # Another table beside.
    ("DROP TABLE held; CREATE TABLE other (x INTEGER)", NOT_A_STORE),
    # Another table, and one of a store's names with other columns, in place of all.
    (
        "DROP TABLE rel; DROP TABLE held; DROP TABLE pos; CREATE TABLE other (x INTEGER)",
        NOT_A_STORE,
    ),
    (
        "DROP TABLE rel; DROP TABLE held; DROP TABLE pos; CREATE TABLE rel (oid INTEGER PRIMARY KEY NOT NULL)",
        NOT_A_STORE,
    ),
)

SECOND = "INSERT INTO pos VALUES (1, x'0000000000000131')"
UNCHECKED = "PRAGMA ignore_check_constraints = ON"


def cases() -> Iterator[Case]:
    for told, made in MADE:
        yield Case("made", "", made, Start.NO_FILE, told)
    for told, texts, is_ours in SCHEMAS:
        yield Case(
            "schema",
            "; ".join(texts),
            begins(State()) if is_ours else NOT_A_STORE,
            Start.NO_TABLES,
            told,
        )
    for told, text, outcome in READ:
        yield Case("read", text, outcome, Start.EMPTY, told)
    for text, outcome in DROPS:
        yield Case("drops", f"{stored()}; {text}", outcome, Start.EMPTY, text or "nothing")
    yield Case(
        "other columns",
        "DROP TABLE rel; CREATE TABLE rel (oid INTEGER PRIMARY KEY)",
        NOT_A_STORE,
        Start.EMPTY,
    )
    yield Case("second position", "", SOUND, rejected=SECOND, told="SQLite rejects it")
    yield Case("second position", f"{UNCHECKED}; {SECOND}", REFUSED)
    yield Case("second position", f"{UNCHECKED}; UPDATE pos SET id = 1", REFUSED)
    for text in WRONG:
        yield Case("wrong", text, NOT_A_STORE)
    for text, taken in RIGHT:
        yield Case("right", text, taken)
    for text, outcome in DROPPED:
        yield Case("dropped", text, outcome)


@dataclass(frozen=True)
class Beside:
    """Statements that another process runs over a store with the rows of FILLED, and what the
    program makes of the file once the process has ended or was killed. Before it has ended the file
    is refused, and where its journal is left, until SQLite has used that."""

    told: str
    statements: tuple[str, ...]
    outcome: Taken | str = SOUND
    is_killed: bool = False
    has_journal: bool = False

    @property
    def name(self) -> str:
        return f"beside: {self.told}"


THREE, NONE = (f"UPDATE held SET copies = {count} WHERE oid = 16386" for count in (3, 0))
# more than stays in memory, so that a part is written before the commit that never comes
MANY = (
    "PRAGMA cache_size = 1",
    "BEGIN IMMEDIATE",
    "WITH RECURSIVE numbers (it) AS (SELECT 1 UNION ALL SELECT it + 1 FROM numbers WHERE it < 500) "
    "INSERT INTO held SELECT 16386, CAST(printf('%500d', it) AS BLOB), x'', 1 FROM numbers",
)
JOURNAL = "PRAGMA journal_mode = DELETE"
THREE_COPIES = goes_on(
    (held(T, "1", "a"), held(F, "x", copies=3), BINARY),
    (held(T, "1", "b"), held(F, "x", copies=2), held(F, "y"), BINARY),
)

BESIDE = (
    Beside("open", ("SELECT count(*) FROM held",)),
    Beside("a transaction that reads", ("BEGIN", "SELECT count(*) FROM held")),
    Beside("a transaction that writes", ("BEGIN IMMEDIATE", THREE)),
    Beside("a transaction that writes with a journal", (JOURNAL, "BEGIN IMMEDIATE", THREE)),
    Beside("killed after a commit", (THREE,), THREE_COPIES, is_killed=True),
    Beside("killed after a commit of what no store writes", (NONE,), NOT_A_STORE, is_killed=True),
    Beside("killed amid a transaction", (THREE, *MANY), THREE_COPIES, is_killed=True),
    Beside(
        "killed amid a transaction, after what no store writes",
        (NONE, *MANY),
        NOT_A_STORE,
        is_killed=True,
    ),
    Beside(
        "killed amid a transaction with a journal",
        (JOURNAL, *MANY),
        is_killed=True,
        has_journal=True,
    ),
)
