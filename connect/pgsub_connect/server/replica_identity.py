"""Which tables have no replica identity that serves: from the moment that one is published for
Updates and Deletes, the server rejects these."""

from pgsub_feed.texts import identifier, literal

from ..errors import ServerError, understood
from .catalog_reader import EXACT, UNIQUE
from .connection import Connection

# What the server says of a change without a usable identity, or of one that isn't all published.
REJECTED = ("55000", "42P10")
# What says nothing of a table: a lost connection, a deadlock, a lock, no resources.
IN_THE_WAY = ("08", "40", "53", "55P03", "57")


def identity(version: int, stored: bool = False) -> str:
    """Whether Updates and Deletes of a table `c` can say which row they are of.

    A partitioned table hands on its primary key alone to partitions that are made later. From 18 on
    an identity has no generated columns, but for `stored` ones where they are published.
    """
    sent = "('', 's')" if stored else "('')"
    full = key = ""
    if version >= EXACT:
        other = f"SELECT FROM pg_catalog.pg_attribute a WHERE a.attrelid = c.oid AND NOT a.attisdropped AND a.attgenerated NOT IN {sent}"
        full = f" AND NOT EXISTS ({other})"
        key = f" AND NOT EXISTS ({other} AND a.attnum = ANY ((i.indkey::pg_catalog.int2[])[0:i.indnkeyatts - 1]))"
    return (
        f"(c.relkind = 'r' AND c.relreplident = 'f'{full} OR EXISTS (SELECT FROM pg_catalog.pg_index i"
        f" WHERE i.indrelid = c.oid AND {UNIQUE} AND CASE WHEN c.relkind = 'p' OR c.relreplident = 'd' THEN i.indisprimary"
        f" WHEN c.relreplident = 'i' THEN i.indisreplident ELSE false END{key}))"
    )


def publishable(version: int) -> str:
    """A query for all tables that there are now: not temporary, unlogged, the system's own or an
    extension's.

    Partitions come with the table above them. Before PostgreSQL 13 such a table can't be published,
    and they come by themselves.
    """
    kinds = "c.relkind IN ('r', 'p') AND NOT c.relispartition"
    kinds = kinds if version >= 130000 else "c.relkind = 'r'"
    return (
        "SELECT c.oid AS relid FROM pg_catalog.pg_class c JOIN pg_catalog.pg_namespace n ON n.oid = c.relnamespace"
        f" WHERE {kinds} AND c.relpersistence = 'p' AND c.oid >= 16384"
        " AND n.nspname NOT IN ('pg_catalog', 'pg_toast', 'information_schema')"
        " AND NOT EXISTS (SELECT FROM pg_catalog.pg_depend d WHERE d.classid = 'pg_catalog.pg_class'::pg_catalog.regclass"
        "  AND d.objid = c.oid AND d.deptype = 'e')"
    )


@understood("tables")
def publishable_tables(connection: Connection) -> list[str]:
    """Their names for SQL."""
    rows = connection.rows(
        f"SELECT n.nspname, c.relname FROM ({publishable(connection.version())}) s JOIN pg_catalog.pg_class c ON c.oid = s.relid"
        " JOIN pg_catalog.pg_namespace n ON n.oid = c.relnamespace ORDER BY 1, 2"
    )
    return [f"{identifier(namespace or '')}.{identifier(name or '')}" for namespace, name in rows]


def tree_of(connection: Connection, source: str) -> str:
    """The relations of a query with a column `relid`, with the partitions below them."""
    if connection.version() < 130000:
        return f"(SELECT s.relid, s.relid AS part FROM ({source}) s)"
    below = (
        "SELECT s.relid AS part UNION SELECT p.relid FROM pg_catalog.pg_partition_tree(s.relid) p"
    )
    return f"(SELECT s.relid, b.part FROM ({source}) s, LATERAL ({below}) b)"


@understood("replica identities")
def keyless_of(connection: Connection, source: str, stored: bool = False) -> dict[int, str]:
    """The tables among those of a query, and the partitions below them, that have no usable replica
    identity: OID and name.

    Each partition's own identity counts, but of those that are unlogged. A partitioned table counts
    where it has no partitions yet.
    """
    rows = connection.rows(
        f"SELECT DISTINCT c.oid, n.nspname, c.relname FROM {tree_of(connection, source)} t"
        " JOIN pg_catalog.pg_class c ON c.oid = t.part JOIN pg_catalog.pg_namespace n ON n.oid = c.relnamespace"
        " WHERE (c.relkind = 'r' AND c.relpersistence = 'p'"
        " OR c.relkind = 'p' AND NOT EXISTS (SELECT FROM pg_catalog.pg_inherits h WHERE h.inhparent = c.oid))"
        f" AND NOT {identity(connection.version(), stored)} ORDER BY 2, 3"
    )
    return {int(oid or 0): f"{namespace}.{name}" for oid, namespace, name in rows}


def members(name: str) -> str:
    """A query for all tables of a publication, listed ones without partitions among them."""
    return (
        f"SELECT p.relid FROM pg_catalog.pg_get_publication_tables({literal(name)}) p UNION SELECT r.prrelid"
        f" FROM pg_catalog.pg_publication_rel r JOIN pg_catalog.pg_publication b ON b.oid = r.prpubid WHERE b.pubname = {literal(name)}"
    )


def keyless_tables(connection: Connection, name: str) -> dict[int, str]:
    """The tables of a publication that have no usable replica identity."""
    query = (
        f"SELECT p.pubgencols FROM pg_catalog.pg_publication p WHERE p.pubname = {literal(name)}"
    )
    stored = connection.version() >= EXACT and connection.value(query) == "s"
    return keyless_of(connection, members(name), stored)


@understood("replica identities")
def rejected_tables(connection: Connection, name: str) -> dict[int, str]:
    """The tables of which the server rejects Deletes, since a publication that was just made has
    them. Nothing is deleted.

    So it is too where a column list or a row filter leaves out or needs what the identity has or
    hasn't.
    """
    rows = connection.rows(
        f"SELECT DISTINCT c.oid, n.nspname, c.relname FROM {tree_of(connection, members(name))} t"
        " JOIN pg_catalog.pg_class c ON c.oid = t.part JOIN pg_catalog.pg_namespace n ON n.oid = c.relnamespace"
        " WHERE c.relkind = 'r' ORDER BY 2, 3"
    )
    found = {}
    connection.run("SAVEPOINT one")
    for oid, namespace, table in rows:
        sql = f"{identifier(namespace or '')}.{identifier(table or '')}"
        try:
            # (with the savepoint goes the lock on the table)
            connection.run(f"EXPLAIN DELETE FROM ONLY {sql}; ROLLBACK TO SAVEPOINT one")
        except ServerError as error:
            if not error.sqlstate or error.sqlstate.startswith(IN_THE_WAY):
                raise
            connection.run("ROLLBACK TO SAVEPOINT one")
            if error.sqlstate in REJECTED:
                _, _, why = str(error).partition("DETAIL:")
                more = f" ({why.strip().rstrip('.')})" if why else ""
                found[int(oid or 0)] = f"{namespace}.{table}{more}"
    connection.run("RELEASE SAVEPOINT one")
    return found
