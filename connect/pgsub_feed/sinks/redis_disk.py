"""What Redis has on its disk, which it writes by itself: a log of commands, or copies."""

import time
from collections.abc import Iterable
from typing import Any

from .. import log
from ..errors import EngineError
from .engine import Trail
from .redis_calls import Calls, Said, understood

# How much later than it says a log is written, and how wrong its times may be, in seconds.
LATE, WRONG = 3.0, 2.0
# How often it is asked, in seconds.
OFTEN = 1.0
INFO, SYNCS = ("INFO", "persistence"), ("CONFIG", "GET", "*appendfsync*")
# Settings with the value by which a log isn't synced, and the one to say in its place.
UNSYNCED = {b"appendfsync": (b"no", "everysec"), b"no-appendfsync-on-rewrite": (b"yes", "no")}


class Disk:
    """Which LSN is on the disk."""

    def __init__(self, calls: Calls) -> None:
        self.calls, self.asked = calls, 0.0
        self.trail = Trail()
        # when it had a log last that it doesn't sync
        self.unsynced = 0.0

    def check(self) -> None:
        """Rejects a log that isn't synced: it is never known what of it the disk has."""
        info, syncs = self.calls.run([INFO, SYNCS])
        with understood(self.calls.where):
            if isinstance(info, Said) or fields(info).get("aof_enabled") != "1":
                return
            unsynced(syncs)
        if isinstance(syncs, Said):
            log.warning(
                f"{self.calls.where}: it doesn't tell whether it syncs its log ({syncs}): that is taken for appendfsync everysec"
            )
        if names := unsynced(syncs):
            better = " and ".join(f"{it.decode()} {UNSYNCED[it][1]}" for it in names)
            text = f"{self.calls.where}: {told(names)}, so it is never known what its disk has: say {better}, or no --reader"
            raise EngineError(text)

    def note(self, at: int) -> None:
        self.trail.note(at, time.time())

    def safe(self) -> int | None:
        now = time.time()
        if not 0 <= now - self.asked < OFTEN:
            self.asked = now
            with understood(self.calls.where):
                self.trail.pass_to(self.moment(now))
        return self.trail.upto

    def moment(self, now: float) -> float:
        """All that was written before is on the disk."""
        info, clock, saves, syncs = self.calls.run(
            [INFO, ("TIME",), ("CONFIG", "GET", "save"), SYNCS]
        )
        if isinstance(info, Said) or isinstance(clock, Said):
            return 0.0
        found = fields(info)
        if found.get("aof_enabled") == "1":
            self.note_syncs(told(unsynced(syncs)), now)
            is_written = found.get("aof_last_write_status") == "ok"
            return now - LATE if is_written and now - self.unsynced > LATE else 0.0
        if not isinstance(saves, Said) and not any(saves[1:]):
            # (it keeps nothing, so after its end all begins anew)
            return now + 1
        took = max(0.0, float(found.get("rdb_last_bgsave_time_sec", "0")))
        ahead = int(clock[0]) - now
        return float(found.get("rdb_last_save_time", "0")) - took - WRONG - ahead

    def note_syncs(self, text: str, now: float) -> None:
        if text and not self.unsynced:
            log.warning(
                f"{self.calls.where}: {text}, so it isn't known any more what its disk has: the reader's LSN stays"
            )
        self.unsynced = now if text else self.unsynced if now - self.unsynced <= LATE else 0.0


def unsynced(syncs: Any) -> list[bytes]:
    """The settings by which a log isn't synced; none where it is, or where that isn't told."""
    found = {} if isinstance(syncs, Said) else dict(zip(syncs[::2], syncs[1::2]))
    return [name for name, (wrong, _) in UNSYNCED.items() if found.get(name) == wrong]


def told(names: Iterable[bytes]) -> str:
    return " and ".join(f"{name.decode()} is {UNSYNCED[name][0].decode()}" for name in names)


def fields(info: Any) -> dict[str, str]:
    lines = (it.partition(":") for it in info.decode(errors="replace").splitlines())
    return {name: value for name, sign, value in lines if sign}
