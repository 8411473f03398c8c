"""What only some versions of the server do, and what the protocol can't say."""

from __future__ import annotations

from ..errors import Failed
from ..place import REJECTED, UNFIT, Place
from .case import Case

INSERT = "INSERT INTO stock SELECT it, 1 FROM generate_series({}, {}) it"


def aborted(place: Place) -> None:
    """Follows in version 1 a server that aborts a transaction which it never sent, as it does of
    one known to be rolled back."""
    place.stock()
    place.follow("--create")
    with place.cluster.connect() as session:
        session.run(
            "BEGIN",
            INSERT.format(10, 10),
            "SAVEPOINT s",
            INSERT.format(20, 40),
            "RELEASE s",
            INSERT.format(100, 5000),
            "ROLLBACK",
        )
    place.change()
    place.follow("--proto", "1")
    place.change()
    place.follow("--proto", "1")
    place.equal()


def two_phase(place: Place) -> None:
    """Rejects a slot that would send prepared transactions."""
    place.stock()
    place.run(f"SELECT pg_create_logical_replication_slot('{place.slot}', 'pgoutput', false, true)")
    place.ends(UNFIT, "two-phase", "--no-copy")


def version_1_alone(place: Place) -> None:
    """Takes version 1 of the protocol where the server has no other, without being told to."""
    place.stock()
    said = place.follow("--create")
    if "version 1 of the protocol alone" not in said:
        raise Failed(said)
    place.run(INSERT.format(1000, 4000))
    place.follow()
    place.equal()


def unsent_value(place: Place) -> None:
    """Tells which commit is rejected where a row with a value that isn't sent enters a row filter;
    identity FULL is the cure."""
    for name in ("wide", "cured"):
        place.run(
            f"CREATE TABLE {name} (k int PRIMARY KEY, big text)",
            f"ALTER TABLE {name} ALTER big SET STORAGE EXTERNAL",
            f"INSERT INTO {name} SELECT it, repeat('x', 9000) FROM generate_series(1, 12) it",
        )
    place.run(
        "ALTER TABLE cured REPLICA IDENTITY FULL",
        "CREATE PUBLICATION cured FOR TABLE cured WHERE (k > 10)",
        "CREATE PUBLICATION pgsub FOR TABLE wide WHERE (k > 10)",
    )
    place.follow("--create", "--publication", "cured")
    place.run("UPDATE cured SET k = 20 WHERE k = 1")
    place.follow("--publication", "cured")
    place.equal("cured")
    place.run(f"SELECT pg_drop_replication_slot('{place.slot}')")
    for it in (*place.files(), place.beside(".connector")):
        it.unlink()
    place.follow("--create")
    place.run("UPDATE wide SET k = 20 WHERE k = 1")
    said = place.ends(REJECTED, "store 4 UnchangedInInsert")
    if "rejected: transaction" not in said or "public.wide" not in said:
        raise Failed(f"it doesn't tell which commit: {said}")


def prepared(place: Place) -> None:
    """Tells within seconds which prepared transaction a copy waits for, of another database too,
    and goes on once it has ended."""
    place.own_server()
    place.stock()
    place.cluster.run("CREATE TABLE other (id int)", database="postgres")
    with place.cluster.connect("postgres") as session:
        session.run("BEGIN", "INSERT INTO other VALUES (1)", "PREPARE TRANSACTION 'left behind'")
    child = place.start("--create")
    child.wait_for("the prepared transaction left behind", 90)
    place.cluster.run("COMMIT PREPARED 'left behind'", database="postgres")
    place.catch_up(child)
    child.stop()
    place.equal()


CASES = (
    Case("transaction-aborted-in-version-1", aborted, since=18),
    Case("two-phase-slot", two_phase, since=14),
    Case("server-of-version-1-alone", version_1_alone, until=13),
    Case("unsent-value-enters-a-row-filter", unsent_value, since=15),
    Case("prepared-transaction-holds-up-a-copy", prepared),
)
