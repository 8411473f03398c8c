"""Passes the rows of a copy on to the filter as a load, whose end brings the store to the slot's
consistent point. What an interrupted load has left is brought there by an empty transaction."""

from collections.abc import Callable, Sequence

from ..stream.filter import LOAD, Filter
from ..stream.filter_end import BROKEN, FilterEnded
from .copy_slot import CopySlot
from .messages import END_OF_TABLE, Frame, begin, commit, frame, load_frame, point_frame
from .messages import table_frame
from .table_reader import Part


class Sender:
    """Sends to a filter, and serves it, while the slot is looked at.

    `longest`: the length of the longest row so far.
    """

    def __init__(self, child: Filter, slot: CopySlot) -> None:
        self.filter, self.slot = child, slot
        self.longest = 0

    def begin(self, words: Sequence[str]) -> None:
        """Starts a filter that loads. It confirms nothing before the end of that."""
        self.filter.launch(LOAD, *words)

    def send_part(self, part: Part) -> None:
        """Sends some rows of a table, of which no other one comes before its last rows."""
        self.longest = max(self.longest, part.longest)
        if part.is_first:
            self.send(table_frame(part.table))
        for frames in part.frames:
            self.send(frames)
        if part.is_last:
            self.send(load_frame(END_OF_TABLE))

    def end(self, point: int) -> None:
        """Brings the store to the slot's consistent point. The filter stays, and follows, unless it
        is to stop by what it watches: that begins with the next one."""
        self.send(point_frame(point))
        self.wait_for(lambda: self.filter.has_opened() and self.filter.confirmed() == point)
        if self.filter.is_to_stop():
            self.finish()

    def send(self, frames: Frame) -> None:
        """Sends frames to the filter, and waits while it has enough to do."""
        self.filter.push_load(frames)
        self.slot.check_all()
        self.wait_for(self.filter.has_room)

    def cut(self) -> None:
        """Ends a load before its point: the store keeps what has come of it."""
        try:
            self.finish()
        except FilterEnded as ended:
            if ended.status != BROKEN:
                raise

    def bring(self, position: int, point: int) -> None:
        """Brings what a load has left to the slot's consistent point, and ends the filter."""
        lsn = max(position, 1)
        self.filter.push(frame(lsn, begin(lsn)) + frame(lsn, commit(lsn, point)))
        self.wait_for(lambda: self.filter.confirmed() == point)
        self.finish()

    def wait_for(self, condition: Callable[[], bool], *reads: int) -> None:
        """Serves the filter until something holds. `reads`: what can be read once it may."""
        while True:
            self.slot.check()
            waits = not condition()
            watched = self.slot.sockets()
            for readable in self.filter.serve(0.5 if waits else 0, [*watched, *reads])[0]:
                if readable in watched:
                    watched[readable].consume()
            if not waits:
                return

    def finish(self) -> None:
        """Ends the filter. Raises where that isn't well."""
        self.filter.finish()
        try:
            self.wait_for(lambda: False)
        except FilterEnded as ended:
            if ended.status != 0:
                raise
