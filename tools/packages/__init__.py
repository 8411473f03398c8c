"""Packages of what ./install installs."""

import gzip
import hashlib
import os
import re
import shutil
import subprocess
import tempfile
from collections.abc import Iterable
from dataclasses import dataclass, replace
from datetime import datetime, timezone
from email.utils import format_datetime
from pathlib import Path

from built import PROGRAM, TOP

from .linked import Unlicensed, copyright_text, kit_folder, linked
from .wheel import make_wheel

SCRIPTS = Path(__file__).resolve().parent / "debian"
OVERRIDES = Path(__file__).resolve().parent / "lintian-overrides"
VERSION = re.compile(r'^VERSION = "(.*)"$', re.M)
GLIBC = re.compile(rb"GLIBC_(\d+)\.(\d+)")
# what a program says of itself
REPORTED = re.compile(r"^commit (\w+), (.+)$", re.M)
SOURCES = ("crates", "crates.txt", "HANDLES")
# what the package needs, but for the C library, whose version the program asks for
NEEDS = {"python3": "3.10", "python3-psycopg": "3.1"}
CONTROL = """\
Package: pgsub
Version: {version}
Architecture: amd64
Maintainer: {maintainer}
Installed-Size: {size}
Depends: {needs}
Suggests: sqlite3, python3-redis, python3-confluent-kafka
Section: database
Priority: optional
Description: exact copies of PostgreSQL tables by logical replication
 pgsub-connect follows a PostgreSQL server, and carries its change stream to
 pgsub, which applies it to a store in a file. The core of pgsub is proved
 correct by machine.
 .
 Commit {commit},
 {kit}.
"""
CHANGES = """\
pgsub ({version}) unstable; urgency=medium

  * CHANGELOG.md has what has changed.

 -- {maintainer}  {date}
"""


class Failed(Exception):
    """A package that can't be made, or isn't as it should be."""


def run(*words: object, **more: object) -> str:
    """Runs a command, and returns what it prints."""
    ran = subprocess.run([str(it) for it in words], stdout=subprocess.PIPE, text=True, check=False, **more)  # type: ignore[call-overload]
    if ran.returncode:
        raise Failed(f"{' '.join(map(str, words))}: status {ran.returncode}")
    return str(ran.stdout).strip()


@dataclass(frozen=True)
class Build:
    """What is packaged: the program with the kit that proved it, and the version and the time, in
    seconds, that are named."""

    program: Path
    version: str
    time: int
    kit: str

    @classmethod
    def of_checkout(cls, program: Path) -> "Build":
        """That of the checkout. Raises Failed where its program is older than its sources, or
        another one."""
        if program == PROGRAM:
            run(TOP / "pgsub", "--is-current")
        kit = kit_of(program)
        form = ("--date=format-local:%Y%m%d%H%M%S", "--format=%cd %h")
        when, name = run(
            "git", "-C", TOP, "log", "-1", *form, env={**os.environ, "TZ": "UTC0"}
        ).split()
        time = int(
            os.environ.get("SOURCE_DATE_EPOCH")
            or run("git", "-C", TOP, "log", "-1", "--format=%ct")
        )
        return cls(program, f"{version_of_sources()}+{when}.g{name}", time, kit)

    @property
    def needs(self) -> dict[str, str]:
        """The packages of Debian that it needs, with the oldest version that does."""
        return {**NEEDS, "libc6": least_libc(self.program)}

    def later(self) -> "Build":
        """One that an upgrade takes for newer."""
        return replace(self, version=f"{self.version}.later")


def version_of_sources() -> str:
    """The version that the connector has."""
    first = VERSION.search((TOP / "connect/pgsub_feed/version.py").read_text())
    assert first
    return first[1]


def kit_of(program: Path) -> str:
    """The kit that a program says it was built by. Raises Failed where it isn't the one of the
    checkout's sources."""
    if program.read_bytes()[:4] != b"\x7fELF":
        raise Failed(f"{program} is no program")
    said = REPORTED.search(run(program, "--version"))
    commit = run("git", "-C", TOP, "log", "-1", "--format=%H", "--", *SOURCES)
    if not said or said[1] != commit:
        raise Failed(
            f"{program} is of the commit {said[1] if said else 'unknown'}, and the sources of {commit}: ./pgsub --build makes it"
        )
    if said[2] not in (TOP / "KITS").read_text(encoding="utf-8").splitlines():
        raise Failed(f"{program} was built by {said[2]}, which KITS doesn't name")
    return said[2]


def make_pages(build: Build, folder: Path) -> None:
    """Makes the manual pages, which are the same in each package."""
    words = (
        TOP / "tools/manuals",
        "--program",
        build.program,
        "--version",
        f"pgsub {build.version}",
        folder,
    )
    run(*words, env={**os.environ, "SOURCE_DATE_EPOCH": str(build.time)})


def install(build: Build, prefix: str, pages: Path, room: Path, *more: str) -> None:
    """Installs below a folder. The program is without its table of symbols."""
    stripped = pages / "pgsub"
    run("strip", "--strip-unneeded", "-o", stripped, build.program)
    words = [
        TOP / "install",
        prefix,
        "--destdir",
        room,
        "--program",
        stripped,
        "--version",
        build.version,
        "--pages",
        pages,
    ]
    run(*words, *more, stderr=subprocess.DEVNULL)


def settle_times(folder: Path, time: int) -> None:
    for path in (folder, *folder.rglob("*")):
        os.utime(path, (time, time), follow_symlinks=False)


def least_libc(program: Path) -> str:
    """The oldest version of the C library that has all that a program asks for."""
    found = [(int(major), int(minor)) for major, minor in GLIBC.findall(program.read_bytes())]
    major, minor = max(found, default=(2, 17))
    return f"{major}.{minor}"


def maintainer() -> str:
    """Who made the commit."""
    return run("git", "-C", TOP, "log", "-1", "--format=%an <%ae>")


def write_documents(build: Build, folder: Path) -> None:
    """Writes what Debian asks of each package: whose all that is linked is, and what has
    changed."""
    kit = kit_folder()
    if kit is None:
        raise Failed(
            "the licences of what is linked come from the toolchain, which isn't on the path"
        )
    try:
        text = copyright_text(linked(kit), (TOP / "LICENSE-MIT").read_text(encoding="utf-8"))
    except Unlicensed as unknown:
        raise Failed(f"an unknown licence: {unknown}") from None
    (folder / "copyright").write_text(text, encoding="utf-8")
    changes = CHANGES.format(
        version=build.version,
        maintainer=maintainer(),
        date=format_datetime(datetime.fromtimestamp(build.time, timezone.utc)),
    )
    (folder / "changelog.gz").write_bytes(gzip.compress(changes.encode(), mtime=0))


def write_control(build: Build, room: Path, folder: Path) -> None:
    texts = dict(
        line.split(" ", 1) for line in (room / "usr/lib/pgsub/BUILD").read_text().splitlines()
    )
    size = sum(it.lstat().st_size for it in room.rglob("*") if not it.is_dir())
    needs = ", ".join(f"{name} (>= {version})" for name, version in build.needs.items())
    text = CONTROL.format(
        version=build.version,
        maintainer=maintainer(),
        size=(size + 1023) // 1024,
        needs=needs,
        commit=texts["commit"],
        kit=build.kit,
    )
    (folder / "control").write_text(text)
    for script in sorted(SCRIPTS.iterdir()):
        shutil.copy(script, folder / script.name)
        (folder / script.name).chmod(0o755)
    plain = [
        it
        for it in sorted(room.rglob("*"))
        if it.is_file() and not it.is_symlink() and folder not in it.parents
    ]
    (folder / "md5sums").write_text(
        "".join(f"{digest(it, 'md5')}  {it.relative_to(room)}\n" for it in plain)
    )


def make_deb(build: Build, pages: Path, room: Path, out: Path) -> Path:
    install(build, "/usr", pages, room, "--python", "/usr/lib/python3/dist-packages")
    (room / "etc/pgsub").mkdir(parents=True)
    # (files with passwords lie there, which systemd reads as root)
    (room / "etc/pgsub").chmod(0o700)
    write_documents(build, room / "usr/share/doc/pgsub")
    (room / "usr/share/lintian/overrides").mkdir(parents=True)
    shutil.copy(OVERRIDES, room / "usr/share/lintian/overrides/pgsub")
    (room / "DEBIAN").mkdir()
    write_control(build, room, room / "DEBIAN")
    settle_times(room, build.time)
    path = out / f"pgsub_{build.version}_amd64.deb"
    words = ("dpkg-deb", "--root-owner-group", "-Zxz", "--threads-max=1", "--build", room, path)
    run(*words, env={**os.environ, "SOURCE_DATE_EPOCH": str(build.time)})
    return path


def make_tar(build: Build, pages: Path, room: Path, out: Path) -> Path:
    install(build, "/usr/local", pages, room)
    name = f"pgsub-{build.version}-x86_64"
    (room / "usr/local").rename(room / name)
    plain = run_tar(room, name, build.time)
    path = out / f"{name}.tar.gz"
    with open(path, "wb") as file, gzip.GzipFile(
        filename="", mode="wb", fileobj=file, mtime=build.time
    ) as packed:
        packed.write(plain)
    return path


def run_tar(room: Path, name: str, time: int) -> bytes:
    words = [
        "tar",
        "--format=gnu",
        "--sort=name",
        "--owner=0",
        "--group=0",
        "--numeric-owner",
        f"--mtime=@{time}",
        "-cf",
        "-",
        name,
    ]
    ran = subprocess.run(words, cwd=room, stdout=subprocess.PIPE, check=False)
    if ran.returncode:
        raise Failed(f"tar: status {ran.returncode}")
    return ran.stdout


def digest(path: Path, kind: str = "sha256") -> str:
    return hashlib.new(kind, path.read_bytes()).hexdigest()


def make_packages(build: Build, out: Path) -> list[Path]:
    """Makes the packages and their sums."""
    with tempfile.TemporaryDirectory(prefix="pgsub-package-") as folder:
        pages, deb, tar, wheel = (Path(folder) / it for it in ("pages", "deb", "tar", "wheel"))
        for it in (pages, deb, tar, wheel):
            it.mkdir()
        make_pages(build, pages)
        made = [make_deb(build, pages, deb, out), make_tar(build, pages, tar, out)]
        made.append(make_wheel(TOP / "connect/pgsub_feed", build.version, build.time, wheel, out))
    sums = out / "SHA256SUMS"
    sums.write_text(lines_of(made))
    return [*made, sums]


def lines_of(paths: Iterable[Path]) -> str:
    return "".join(f"{digest(it)}  {it.name}\n" for it in paths)
