#!/usr/bin/python3
"""Keeps a feed's rows by the files that docs/FORMATS.md tells. Where it ends: start it again."""
import json, os, pickle, sys, time, zlib

(feed, path), segment, offset = sys.argv[1:], "", 0
at, tables, rows = pickle.load(open(path, "rb")) if os.path.exists(path) else (None, {}, {})

def number(lsn):
    return int("".join(it.zfill(8) for it in lsn.strip().split("/")), 16)

def read(offset, size=None):  # of the segment so many bytes, or a line
    with open(f"{feed}/{segment}", "rb") as file:
        return file.seek(offset) and (file.readline() if size is None else file.read(size))

def count(oid, cells, by, is_repair):
    row, keys = dict(zip([it[0] for it in tables[oid]["columns"]], cells)), tables[oid]["key"]
    key = json.dumps([row[it] for it in keys or row])
    copies = rows[oid].pop(key, (row, 0))[1] + by
    copies = max(by, 0) if is_repair and keys else copies  # (its `before` may never have been here)
    rows[oid] |= {key: (row, copies)} if copies else {}

def keep(lsn, lines, is_repair=False):
    for it in (it for it in map(json.loads, lines) if isinstance(it, list) or it["op"] != "m"):
        it = {"op": "r", "after": it} if isinstance(it, list) else it  # a first row
        table = json.loads(read(it["at"])) if "at" in it else table if it["op"] == "r" else it
        if table != tables.get(oid := table["oid"]):  # columns keep values by name
            tables[oid], before, rows[oid] = table, rows.get(oid, {}), {}
            for row, copies in before.values():
                count(oid, [row.get(name) for name, *_ in table["columns"]], copies, False)
        rows[oid] = {} if it["op"] == "t" else rows[oid]
        for row, by in ((it.get("before"), -1), (it.get("after"), 1)):
            if row is not None:
                count(oid, row, by, is_repair)
    with open(path + ".new", "wb") as file:
        pickle.dump((number(lsn), tables, rows), file)
        os.fsync(file.flush() or file.fileno())
    return os.replace(path + ".new", path) or number(lsn)

def first_rows(file=1):
    head, *lines = open(f"{feed}/base/{file:08}", "rb").read().splitlines(True)
    told = json.loads(head)
    assert zlib.crc32(b"".join(lines)) == told["crc"], "a file of first rows is spoiled"
    return told["lsn"], lines + ([] if told["last"] else first_rows(file + 1)[1])

while True:
    confirmed = open(f"{feed}/confirmed").read() if os.path.exists(f"{feed}/confirmed") else "0/0"
    at = at or (keep(*first_rows()) if os.path.exists(f"{feed}/base") else 0)
    names = [it for it in os.listdir(feed) if len(it) == 16 and int(it, 16) <= at]
    offset = offset if segment == (segment := max(names)) else 1024
    told = json.loads(line) if len(line := read(offset, 256)) == 256 and 0 not in line else {}
    text = read(offset + 256, told.get("bytes", 0))
    end, is_repair = number(told.get("end", "0/0")), told.get("xid") == 2
    if not end or len(text) < told["bytes"] or is_repair and number(confirmed) < end:
        time.sleep(0.02)
        continue
    offset += 256 + len(text)
    if end > at:
        assert zlib.crc32(line.split(b',"crc"')[0] + text) == told["crc"], f"spoiled: {told['end']}"
        assert number(told["prev"]) == at, "the feed lacks commits: begin anew"
        at = keep(told["end"], text.splitlines(), is_repair)
