"""Where in a stream a transaction may stand that is the connector's own, as that of the rows of a
table that is added, which a slot's snapshot has.

Its LSNs are above all that was passed on, none that comes behind is below them, and they aren't
below the slot's consistent point: what is below that is in the rows. Two such places can be told:

- the slot's consistent point, where nothing above it was passed on yet, as the module `stream.hold`
  says;
- else the LSN of the first of these that is above all that was passed on: a Begin with such a final
  LSN, or a keepalive between transactions with such an end. That is above the end of each commit and
  each keepalive. The record of a commit may begin where the one before it ends: there is no place
  between these.

The transaction stands before the first Begin with a final LSN of the place or above it, and the
first keepalive between transactions with such an end.

Where nothing happens at the server, none of the two would come. So a keepalive between transactions
that is above all that was passed on is kept back until something comes behind it. (The server hears
of the connector meanwhile as at any time when little happens. A primary server that has just become
quiet writes a record within 15 seconds.) Not so where commits at the server wait for the follower:
what confirms one that changes nothing that is published is a keepalive.
"""

from .messages import BEGIN, COMMIT, final_lsn, number


class Place:
    """Looks for one. `point`: its LSN, once the stream is there, and 0 before."""

    def __init__(self) -> None:
        self.kept: list[bytes] = []
        self.end()

    def begin(self, reached: int, is_urgent: bool = False) -> None:
        """One will be looked for, and nothing is passed on from now on, unless `is_urgent`: commits
        wait. `reached`: an LSN that nothing that was passed on is above."""
        self.end()
        self.is_open, self.reached = True, reached
        self.holds = self.keeps = not is_urgent

    def go_on(self) -> None:
        """The stream goes on."""
        self.holds = False

    def hurry(self) -> list[bytes]:
        """Commits wait from now on: nothing is held or kept back. Returns what was."""
        kept, self.kept = self.kept, []
        self.holds = self.keeps = False
        return kept

    def seek(self, point: int) -> None:
        """It is looked for from now on, from this point of a slot on."""
        self.seeks, self.least = True, point
        self.holds = False

    def end(self) -> list[bytes]:
        """None is looked for any more. Returns what was kept back."""
        kept, self.kept = self.kept, []
        self.is_open = self.holds = self.keeps = self.seeks = False
        self.point = self.least = self.reached = 0
        return kept

    def is_found(self) -> bool:
        """Whether the stream is there. Nothing is passed on as long as it is."""
        return self.point > 0

    def stops(self) -> bool:
        """Whether nothing may be passed on now."""
        return self.holds or self.is_found()

    def passing(self, payloads: list[bytes], is_inside: bool) -> tuple[list[bytes], list[bytes]]:
        """What of payloads is passed on now, and what comes behind the place, if that is among them.
        `is_inside`: they begin between Begin and Commit."""
        payloads, self.kept = [*self.kept, *payloads], []
        for index, payload in enumerate(payloads):
            letter, lsn, end = payload[25] if len(payload) > 25 else 0, 0, 0
            if letter == BEGIN:
                lsn, is_inside = final_lsn(payload), True
            elif letter == COMMIT:
                end, is_inside = number(payload[35:43]), False
            elif not letter:
                end = number(payload[1:9])
                lsn = 0 if is_inside else end
            if lsn > self.reached:
                if self.is_at(lsn):
                    return payloads[:index], payloads[index:]
                if not letter and self.keeps and not self.seeks and are_alike(payloads[index:]):
                    self.kept = payloads[index:]
                    return payloads[:index], []
            self.reached = max(self.reached, end)
        return payloads, []

    def is_at(self, lsn: int) -> bool:
        """Whether the place is before what has this LSN, which is above all that was passed on."""
        if self.seeks and lsn >= self.least:
            self.point = self.least if self.least > self.reached else lsn
        return self.is_found()


def are_alike(keepalives: list[bytes]) -> bool:
    """Whether what begins with a keepalive is keepalives of the same end alone."""
    return all(it[:9] == keepalives[0][:9] for it in keepalives)
