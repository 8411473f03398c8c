"""A stream of Redis for each table: an entry for each change, its id the LSN at which its commit
ends and its number in there; and one for the logical messages, with their numbers."""

from collections.abc import Iterable, Iterator, Mapping

from ..errors import Unfit
from ..formats.keys import entry
from ..reader.commits import Change, Commit, Message, Missed
from ..texts import lsn_text
from .redis_calls import Calls, Command, Said, raised, size_of, understood
from .redis_form import Form
from .relations import Kept

NONE = (0, 0)
# The stream of the messages.
MESSAGES = "pgsub:message"


class Streams(Form):
    """How changes are written."""

    name, is_keyed_only = "streams", False

    def __init__(self, calls: Calls) -> None:
        self.calls = calls
        self.waiting: list[Command] = []
        # by stream the first id of what waits
        self.first = dict[str, tuple[int, int]]()

    def clear(self) -> None:
        self.waiting.clear()
        self.first.clear()
        self.size = 0

    def add(self, stream: str, lsn: int, n: int, told: Mapping[str, str | bytes]) -> None:
        self.first.setdefault(stream, (lsn, n))
        words = [it for pair in told.items() for it in pair]
        self.waiting.append(("XADD", stream, f"{lsn}-{n}", *words))
        self.size += size_of(words)

    def change(self, kept: Kept, it: Change | Missed, commit: Commit) -> None:
        self.add(kept.name, commit.end, it.n, entry(it))

    def message(self, it: Message, commit: Commit) -> None:
        told = {"op": "m", "lsn": lsn_text(it.lsn), "prefix": it.prefix}
        self.add(MESSAGES, commit.end, it.n, {**told, "content": it.bytes()})

    def watched(self) -> list[str]:
        return list(self.first)

    def prepare(self) -> None:
        """Rejects a stream that has later entries than those that wait, or a key that is none."""
        said = self.calls.run([("XINFO", "STREAM", it) for it in self.first])
        for (stream, first), it in zip(self.first.items(), said, strict=True):
            last = self.last(stream, it)
            if last >= first:
                text = "{}-{} isn't above {}-{}, which it has".format(*first, *last)
                raise Unfit(
                    f"{self.calls.where}: something else has written the stream {stream}: {text}. Take another database"
                )

    def last(self, stream: str, said: object) -> tuple[int, int]:
        if isinstance(said, Said):
            if "no such key" in str(said):
                return NONE
            if str(said).startswith("WRONGTYPE"):
                text = f"{self.calls.where}: the key {stream} is there already, and isn't a stream: take another database"
                raise Unfit(text)
            raise raised(said, self.calls.where)
        with understood(self.calls.where):
            if not isinstance(said, list):
                raise TypeError("no list")
            last = dict(zip(said[::2], said[1::2]))[b"last-generated-id"]
            milliseconds, _, number = last.partition(b"-")
            return int(milliseconds), int(number)

    def commands(self) -> list[Command]:
        return list(self.waiting)

    def removals(self, names: Iterable[str]) -> Iterator[list[Command]]:
        for name in names:
            yield [("UNLINK", name)]
