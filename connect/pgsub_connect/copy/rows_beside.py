"""What gets the rows of an initial copy, too, while they are read."""

from collections.abc import Callable, Sequence

from pgsub_feed.interruption import Check

from ..server.catalog import Table


class RowsBeside:
    """What gets them, from `begin` to `end` or `abandon`. This one has no use for them."""

    def prepare(self) -> None:
        """The slot is about to be made with which the next start goes on."""

    def filter_words(self) -> Sequence[str]:
        """What the filter is told, which keeps what follows the rows, too."""
        return ()

    def begin(self, point: int) -> None:
        """The rows that there were at this LSN are about to come."""

    def take(self, table: Table, lines: list[bytes]) -> None:
        """Takes rows in COPY's text format, from any thread. It may wait."""

    def is_ready(self, check: Check) -> bool:
        """All rows have come, and the store is about to be complete. Returns whether what follows
        them may be kept from then on; else the store is needed before, and nobody has it open."""
        return True

    def end(self) -> None:
        """The store is complete."""

    def wait(self) -> None:
        """Waits until it is done."""

    def abandon(self) -> None:
        """No more come. Whatever waits in `take` ends."""


class Several(RowsBeside):
    """Some that get them, each all of them. `note` is told before the next start can go on with the
    copy; `told`: what the filter is told."""

    def __init__(
        self,
        parts: Sequence[RowsBeside],
        note: Callable[[], None],
        told: Callable[[], Sequence[str]] = tuple,
    ) -> None:
        self.parts, self.note, self.told = parts, note, told

    def prepare(self) -> None:
        self.note()

    def filter_words(self) -> Sequence[str]:
        return self.told()

    def begin(self, point: int) -> None:
        for it in self.parts:
            it.begin(point)

    def take(self, table: Table, lines: list[bytes]) -> None:
        for it in self.parts:
            it.take(table, lines)

    def is_ready(self, check: Check) -> bool:
        return all([it.is_ready(check) for it in self.parts])

    def end(self) -> None:
        for it in self.parts:
            it.end()

    def wait(self) -> None:
        for it in self.parts:
            it.wait()

    def abandon(self) -> None:
        for it in self.parts:
            it.abandon()
