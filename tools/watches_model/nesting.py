"""The subtransactions of a streamed transaction (docs/PROTOCOL.md, rule 2; pgsub_core's definition
Server/Streamed).

An entry is an item under its xid, or the abort of one. Xids that are aborted make up parts that are
rolled back; such a part stands in one place, all of it is aborted there, and no xid is of two
parts. The others nest as brackets do.
"""

from collections.abc import Sequence
from typing import NamedTuple


class Entry(NamedTuple):
    at: int
    subxid: int
    is_abort: bool
    is_relation: bool = False
    oids: tuple[int, ...] = ()


def dead_runs(entries: Sequence[Entry], aborted: set[int]) -> list[list[Entry]]:
    """The longest parts of which each entry names an xid that is aborted."""
    runs: list[list[Entry]] = [[]]
    for entry in entries:
        if entry.subxid in aborted:
            runs[-1].append(entry)
        elif runs[-1]:
            runs.append([])
    return [it for it in runs if it]


def are_rolled_back(runs: list[list[Entry]]) -> bool:
    """Whether each xid is of one part alone, and aborted in it behind its last item."""
    named = [{entry.subxid for entry in run} for run in runs]
    if sum(map(len, named)) != len(set().union(*named)):
        return False
    last_is_abort = ({entry.subxid: entry.is_abort for entry in run} for run in runs)
    return all(all(last.values()) for last in last_is_abort)


def are_brackets(xid: int, subxids: Sequence[int]) -> bool:
    """Whether items under these xids are those of subtransactions inside one another, inside this
    transaction."""
    open_ones, closed = [xid], set[int]()
    for subxid in subxids:
        if subxid in closed:
            return False
        while subxid in open_ones and open_ones[-1] != subxid:
            closed.add(open_ones.pop())
        if open_ones[-1] != subxid:
            open_ones.append(subxid)
    return True


def survivors(xid: int, entries: Sequence[Entry]) -> list[Entry] | None:
    """The items that are not rolled back; None where no transaction comes so."""
    aborted = {it.subxid for it in entries if it.is_abort}
    alive = [it for it in entries if it.subxid not in aborted]
    if xid in aborted or not are_rolled_back(dead_runs(entries, aborted)):
        return None
    return alive if are_brackets(xid, [it.subxid for it in alive]) else None


def misfit(xid: int, entries: Sequence[Entry]) -> Entry:
    """The entry that doesn't fit with what comes behind it: the last one from which on no
    transaction ends so. (Whatever a transaction ends with, its later part is an end of one, too.)
    """
    good, bad = len(entries), 0
    while good - bad > 1:
        middle = (good + bad) // 2
        if survivors(xid, entries[middle:]) is None:
            bad = middle
        else:
            good = middle
    return entries[bad]
