#!/usr/bin/python3
"""Keeps a feed's rows in a dict, and the dict with its LSN in a file, as often as it is killed.

usage: keep_dict.py FEED FILE
"""

import os
import pickle
import sys

from pgsub_feed import Delete, Insert, Row, Truncate, Update, read
from pgsub_feed.files import replace_file


def count(rows, row, by):
    """Adds a row, or takes it away. Of a table without a key there may be several equal ones."""
    columns, key = row.table.shape.columns, row.key()
    has_key = row.table.shape.identity in ("d", "i") and any(it.key for it in columns)
    copies = rows.pop(key, (row, 0))[1] + by
    # (in a repair the row before may never have been here)
    copies = max(by, 0) if has_key else copies
    if copies:
        rows[key] = dict(row), copies


def reshaped(table, rows):
    """Rows of another definition, by the key that they have now; values stay with their names."""
    found, names = {}, [it.name for it in table.shape.columns]
    for row, copies in rows.values():
        count(found, Row(table, tuple(row.get(it) for it in names)), copies)
    return found


feed, path = sys.argv[1:]
# by OID the shape of a table and its rows, each with how often it is there
lsn, tables = pickle.load(open(path, "rb")) if os.path.exists(path) else (0, {})
for commit in read(feed, after=lsn, follow=True, reader="dict"):
    for change in commit.changes:
        table = change.table
        shape, rows = tables.get(table.oid, (table.shape, {}))
        rows = rows if shape == table.shape else reshaped(table, rows)
        tables[table.oid] = table.shape, rows
        if isinstance(change, Truncate):
            rows.clear()
        if isinstance(change, (Update, Delete)):
            count(rows, change.before, -1)
        if isinstance(change, (Insert, Update)):
            count(rows, change.after, 1)
    replace_file(path, pickle.dumps((commit.lsn, tables)))
