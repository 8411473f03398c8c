"""Makes slots, and drops those that were just made."""


from pgsub_feed import log
from pgsub_feed.errors import Unfit
from pgsub_feed.interruption import Check, never
from pgsub_feed.texts import identifier, parse_lsn

from ..drift.remembered import Remembered
from ..errors import ServerError, understood
from ..server.catalog_reader import read_catalog
from ..server.connection import QUICK, Connection
from ..server.publications import has_publication
from ..server.publication_setup import Maker
from ..server.session import Subscription, of_slot, settle, settle_for_slot, slot_position
from ..server.waits import Waiting


def create_temporary(replication: Connection, name: str) -> tuple[str, int, str]:
    """Makes a temporary slot, named so and more; its name, consistent point and snapshot."""
    # (a start takes as long as what it imports)
    import secrets

    temporary = f"{name}_{secrets.token_hex(4)}"
    settle_for_slot(replication)
    command = f"CREATE_REPLICATION_SLOT {identifier(temporary)} TEMPORARY LOGICAL pgoutput EXPORT_SNAPSHOT"
    with understood("a new slot"):
        _, point, snapshot, _ = replication.rows(command)[0]
        return temporary, parse_lsn(point or ""), snapshot or ""


def set_failover(replication: Connection, slot: str, wanted: bool) -> None:
    """Makes a slot one that standbys get too, as the copy of one never is."""
    if not wanted:
        return
    if replication.value(of_slot("s.failover", slot)) != "t":
        replication.run(f"ALTER_REPLICATION_SLOT {identifier(slot)} (FAILOVER true)")


def drop_slot(connection: Connection, slot: str) -> None:
    """Drops a slot that was just made."""
    try:
        with connection.checked_by(never):
            connection.run(f"DROP_REPLICATION_SLOT {identifier(slot)}", limit=QUICK)
    except ServerError as error:
        log.warning(f"the slot {slot} was made and not dropped again: {error}")


def create_slot(
    maker: Maker, failover: bool, remembered: Remembered | None = None, messages: bool = False
) -> bool:
    """Makes publications and slot, without rows, where they aren't there, and remembers what is
    published from then on. Returns whether the slot was made.

    Where the maker's `check` raises meanwhile, none of them is made.
    """
    if remembered:
        remembered.begin_anew()
    subscription, check, is_made = maker.subscription, maker.check, False
    slot, connection = subscription.slot, subscription.connect(check, replication=True)
    try:
        settle(connection)
        is_there = has_slot(connection, subscription, failover, messages)
        maker.make()
        subscription.note_publications(maker.publications)
        if not is_there:
            make_slot(connection, subscription, check)
            is_made = True
        set_failover(connection, slot, failover)
        if remembered:
            remembered.begin(read_catalog(connection, subscription.publications))
            remembered.keep_made(maker.made)
        maker.keep()
    except BaseException:
        if is_made:
            drop_slot(connection, slot)
        gone = maker.take_back()
        if remembered:
            remembered.forget_made(gone)
        raise
    finally:
        connection.close()
    return is_made


def has_slot(
    connection: Connection, subscription: Subscription, failover: bool, messages: bool
) -> bool:
    """Whether the slot is there. Raises where it can't be made, or lacks publications."""
    if slot_position(connection, subscription.slot) is None:
        from ..preconditions import require

        require(connection, subscription.slot, False, failover, messages)
        return False
    if missing := [it for it in subscription.publications if not has_publication(connection, it)]:
        # (its log is read by the catalog of its time, which hasn't the publication)
        text = f"the slot {subscription.slot} is older than the publication {missing[0]}, which isn't there: drop the slot"
        raise Unfit(text)
    return True


def make_slot(connection: Connection, subscription: Subscription, check: Check) -> None:
    slot = subscription.slot
    settle_for_slot(connection)
    with connection.checked_by(Waiting(subscription, check).check):
        command = f"CREATE_REPLICATION_SLOT {identifier(slot)} LOGICAL pgoutput NOEXPORT_SNAPSHOT"
        connection.run(command)
    log.info(f"made the slot {slot}")
