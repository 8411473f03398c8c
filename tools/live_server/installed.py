"""Which PostgreSQL is run: one of this machine, or one in a root folder."""

from __future__ import annotations

import dataclasses
import os
import pwd
import re
import shutil
import subprocess
from pathlib import Path

from .errors import Unusable

PLACES = ("usr/lib/postgresql", "usr/pgsql", "usr/local/pgsql")


@dataclasses.dataclass(frozen=True)
class Account:
    """Whom a server runs as."""

    name: str
    uid: int
    gid: int


@dataclasses.dataclass(frozen=True)
class Installation:
    """Programs of one version. `root`: the folder in which they run by chroot, `/` for none. `bin`
    is a path in there."""

    root: Path
    bin: Path
    version: int
    account: Account | None

    def words(self, program: str, *words: str) -> list[str]:
        """The words that run one of the programs, as the server's account."""
        account = self.account
        changed = (
            ["chroot", f"--userspec={account.uid}:{account.gid}", "--groups=", str(self.root)]
            if account
            else []
        )
        return [*changed, str(self.bin / program), *words]

    def call(self, program: str, *words: str, log: Path) -> str:
        """Runs a program to its end, and returns what it said. A server that it starts keeps the
        log's file open."""
        with open(log, "a+b") as said:
            at = said.seek(0, os.SEEK_END)
            status = subprocess.run(
                self.words(program, *words),
                cwd="/",
                stdin=subprocess.DEVNULL,
                stdout=said,
                stderr=said,
                check=False,
                env={"PATH": "/usr/sbin:/usr/bin:/sbin:/bin", "LC_ALL": "C.UTF-8", "HOME": "/"},
            ).returncode
            said.seek(at)
            text = said.read().decode(errors="replace")
        if status:
            raise Unusable(f"{program}: status {status}: {text.strip()}")
        return text

    def inside(self, path: Path) -> str:
        """A path as the server knows it."""
        return str(path) if self.root == Path("/") else f"/{path.relative_to(self.root)}"

    def work_folder(self, outside: Path) -> Path:
        """Where the folders of servers are made."""
        return outside if self.root == Path("/") else self.root / "var/tmp"


def versions_in(root: Path) -> dict[int, Path]:
    """The folders of programs in a root folder, by version."""
    found = [
        it
        for place in PLACES
        for it in [root / place / "bin/pg_ctl", *root.glob(f"{place}/*/bin/pg_ctl")]
        if it.exists()
    ]
    in_path = shutil.which("pg_ctl") if root == Path("/") else None
    if in_path:
        found.append(Path(in_path).resolve())
    return {
        version: it.parent for it in found if (version := version_of(root, it.parent)) is not None
    }


def version_of(root: Path, folder: Path) -> int | None:
    """The major version of a folder of programs. Debian's folders say it, others' programs do."""
    named = re.fullmatch(r"(\d+)", folder.parent.name)
    if named:
        return int(named[1])
    if root != Path("/"):
        return None
    said = subprocess.run(
        [folder / "postgres", "--version"], capture_output=True, check=False
    ).stdout.decode(errors="replace")
    told = re.search(r"\) (\d+)", said)
    return int(told[1]) if told else None


def account_of(root: Path, user: str) -> Account | None:
    """The server's account where this runs as root, which no server does."""
    if os.getuid() != 0:
        return None
    if root == Path("/"):
        try:
            entry = pwd.getpwnam(user)
        except KeyError:
            raise Unusable(f"there is no account {user}: name another with --user") from None
        return Account(user, entry.pw_uid, entry.pw_gid)
    for line in (root / "etc/passwd").read_text(encoding="utf-8").splitlines():
        name, _, uid, gid, *_ = line.split(":")
        if name == user:
            return Account(user, int(uid), int(gid))
    raise Unusable(f"{root} has no account {user}: name another with --user")


def find(version: int | None, root: Path | None, user: str) -> Installation:
    """The installation of a version, or the newest one; of this machine, or in a root folder."""
    top = root.resolve() if root else Path("/")
    if root and os.getuid() != 0:
        raise Unusable("--root needs the rights of root, for chroot")
    found = versions_in(top)
    if not found:
        raise Unusable(
            f"there is no PostgreSQL server{f' in {top}' if root else ': apt-get install postgresql'}"
        )
    wanted = version if version is not None else max(found)
    if wanted not in found:
        raise Unusable(
            f"there is no PostgreSQL {wanted}{f' in {top}' if root else ''}, but {', '.join(map(str, sorted(found)))}"
        )
    return Installation(
        top, Path("/") / found[wanted].relative_to(top), wanted, account_of(top, user)
    )
