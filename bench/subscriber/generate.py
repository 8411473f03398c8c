#!/usr/bin/env python3
"""Writes a session for measurements: generate.py KIND FILE [--changes N] [--each N] [--open N]
[--block N] [--seed N] [--recording]

The table has four text columns of 10 bytes, the first of which is its key. The kinds:
  inserts      N inserts in transactions of --each changes
  updates      a quarter as many inserts, in order, and updates of rows chosen at random for the rest
  interleaved  N inserts in streamed transactions, --open of them at once, in stream blocks of
  --block changes that alternate; they commit
               in an order chosen at random
  rolled-back  N inserts in one streamed transaction, of which only the first of each --block
  changes stays: the others are made by a
               subtransaction, which is rolled back after its stream block
The file holds the plain bytes, or with --recording a recording with a frame a line. The same
arguments always make the same bytes.
"""

import argparse
import random
import sys
from pathlib import Path

sys.path.insert(0, str(Path(__file__).resolve().parents[2] / "tools"))
from histories_model import wire  # noqa: E402

CELLS = 4
TABLE = wire.Definition(
    16384,
    b"public",
    b"t",
    b"d",
    [wire.Column(int(n == 0), b"c%d" % n, 25, -1) for n in range(CELLS)],
)


def row(key, turn):
    return [wire.text(b"%010d" % (key if n == 0 else turn + n)) for n in range(CELLS)]


def relation(xid=None):
    return wire.item(b"R", TABLE.rest, xid)


def insert(key, turn, xid=None):
    return wire.item(b"I", wire.Change(b"I", [TABLE], new=row(key, turn)).rest(), xid)


def update(key, turn):
    return wire.item(b"U", wire.Change(b"U", [TABLE], new=row(key, turn)).rest())


class Session:
    """The frames of a session: each message in an XLogData of its own."""

    def __init__(self, out, recording):
        self.out = out
        self.recording = recording
        self.lsn = 0x1000

    def send(self, *messages):
        for message in messages:
            frame = wire.xlog_data(self.lsn, self.lsn, 0, message)
            self.out.write(frame.hex().encode() + b"\n" if self.recording else frame)

    def next_lsn(self):
        self.lsn += 0x100
        return self.lsn

    def send_pair(self, xid, messages):
        lsn = self.next_lsn()
        self.send(wire.begin(lsn, 0, xid), *messages, wire.commit(lsn, lsn + 0x30, 0))

    def send_stream_commit(self, xid):
        lsn = self.next_lsn()
        self.send(wire.stream_commit(xid, lsn, lsn + 0x30, 0))


def send_pairs(session, changes, each):
    """Sends transactions of so many changes, with the definition in the first one."""
    for first in range(0, len(changes), each):
        head = [relation()] if first == 0 else []
        session.send_pair(1000 + first // each, head + changes[first : first + each])


def send_inserts(session, options):
    send_pairs(session, [insert(n, n) for n in range(options.changes)], options.each)


def send_updates(session, options):
    rows = options.changes // 4
    chosen = random.Random(options.seed)
    changes = [insert(n, n) for n in range(rows)]
    changes += [update(chosen.randrange(rows), n) for n in range(rows, options.changes)]
    send_pairs(session, changes, options.each)


def send_block(session, xid, is_first, messages):
    session.send(wire.stream_start(xid, is_first), *messages, b"E")


def send_interleaved(session, options):
    xids = [1000 + n for n in range(options.open)]
    per_round = options.open * options.block
    for start in range(0, options.changes, per_round):
        for n, xid in enumerate(xids):
            first = start + n * options.block
            made = [
                insert(key, key, xid)
                for key in range(first, min(first + options.block, options.changes))
            ]
            send_block(session, xid, start == 0, [relation(xid)] * (start == 0) + made)
    random.Random(options.seed).shuffle(xids)
    for xid in xids:
        session.send_stream_commit(xid)


def send_rolled_back(session, options):
    top = 1000
    for first in range(0, options.changes, options.block):
        subxid = 1001 + first // options.block
        head = [relation(top)] if first == 0 else []
        made = [
            insert(key, key, subxid)
            for key in range(first + 1, min(first + options.block, options.changes))
        ]
        send_block(session, top, first == 0, [*head, insert(first, first, top), *made])
        session.send(wire.stream_abort(top, subxid))
    session.send_stream_commit(top)


KINDS = {
    "inserts": send_inserts,
    "updates": send_updates,
    "interleaved": send_interleaved,
    "rolled-back": send_rolled_back,
}


def main():
    parser = argparse.ArgumentParser(
        description=__doc__, formatter_class=argparse.RawDescriptionHelpFormatter
    )
    parser.add_argument("kind", choices=KINDS)
    parser.add_argument("file")
    parser.add_argument("--changes", type=int, default=100000)
    parser.add_argument("--each", type=int, default=100)
    parser.add_argument("--open", type=int, default=1000)
    parser.add_argument("--block", type=int, default=5)
    parser.add_argument("--seed", type=int, default=1)
    parser.add_argument("--recording", action="store_true")
    options = parser.parse_args()
    with open(options.file, "wb") as out:
        KINDS[options.kind](Session(out, options.recording), options)


if __name__ == "__main__":
    main()
