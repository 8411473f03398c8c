"""What a filter of tests notes of commits in the file of `--repeats`, a line for each: it compares
them by the model of `tools/watches`."""

from __future__ import annotations

import json
import os
import sys

TYPE_CHECKING = False
if TYPE_CHECKING:
    from watches_model.past import Commit

HERE = os.path.dirname(os.path.abspath(__file__))


class NotedCommits:
    """It. `position`: that of the store."""

    def __init__(self, path: str, position: int) -> None:
        sys.path.append(os.path.join(HERE, "..", "..", "tools"))
        from watches_model.comparing import Compared
        from watches_model.past import Commit

        self.path, noted = path, list[Commit]()
        if os.path.exists(path):
            with open(path, encoding="ascii") as file:
                for line in file:
                    end, lsn, xid, time, changes, crc = json.loads(line)
                    noted.append(Commit(end, lsn, xid, time, (changes, crc)))
        open(path, "a", encoding="ascii").close()
        self.compared = Compared(noted, self.note, position)
        self.say(self.compared.said())

    def say(self, text: str) -> None:
        print(f"pgsub: repeats: {text}", file=sys.stderr, flush=True)

    def note(self, commit: Commit | None) -> None:
        """Notes one, or forgets all."""
        with open(self.path, "a" if commit else "w", encoding="ascii") as file:
            file.write(json.dumps([*commit[:4], *commit.digest]) + "\n" if commit else "")

    def begin_session(self) -> None:
        self.compared.begin_session()

    def take(self, payload: bytes) -> None:
        """Compares the commit that a payload completes."""
        if payload[:1] == b"w" and (told := self.compared.take(payload[25:26], payload[26:])):
            self.say(told)

    def end(self) -> None:
        self.say(self.compared.counted())
