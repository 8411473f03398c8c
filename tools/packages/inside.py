"""Tries a package where neither checkout nor toolchain is: it is started as root, in a copy of a
machine's files.

In its folder are README.md, the packages in `first` and `second`, the tar file, and the modules that
run walkthroughs and plant faults. The last line is `N passed, M failed`.
"""

import os
import pwd
import shlex
import shutil
import signal
import subprocess
import sys
import time
from collections.abc import Iterable
from pathlib import Path

from documents import walkthroughs
from trying.faults import try_faults
from trying.machine import ENVIRONMENT, SECONDS, SERVER, USER, Counts, Following, Wrong, run

HERE = Path(__file__).resolve().parent
# Debian's packages that the trial needs, each with a command of it, and what a sink needs of those
# that the package suggests.
NEEDS = {
    "postgresql": "pg_lsclusters",
    "redis-server": "redis-server",
    "sqlite3": "sqlite3",
    "man-db": "man",
    "systemd": "systemd-analyze",
    "procps": "pgrep",
}
SUGGESTED = ("python3-redis",)
UNITS = [
    Path("/usr/lib/systemd/system", it)
    for it in ("pgsub@.service", "pgsub-account@.service", "pgsub-sink@.service")
]


def prepared() -> None:
    """What the trial itself needs is there: a server, and what looks at databases and documents."""
    run("apt-get", "-qq", "update")
    needed = [it for it, where in NEEDS.items() if not shutil.which(where)]
    # (where nothing is running but the trial no package starts a service)
    policy = Path("/usr/sbin/policy-rc.d")
    policy.write_text("#!/bin/sh\nexit 101\n")
    policy.chmod(0o755)
    run("apt-get", "-y", "-qq", "--no-install-recommends", "install", *needed, *SUGGESTED)


def bare() -> None:
    """What a package needs isn't there, nor what one is made with."""
    run("apt-get", "-y", "-qq", "purge", "python3-psycopg")
    for command in ("rt", "pgsub", "pgsub-connect"):
        if subprocess.run(["which", command], stdout=subprocess.DEVNULL).returncode == 0:
            raise Wrong(f"{command} is there")
    if (
        subprocess.run(
            ["/usr/bin/python3", "-c", "import psycopg"], stderr=subprocess.DEVNULL
        ).returncode
        == 0
    ):
        raise Wrong("psycopg is there")


def walk(counts: Counts, kind: str, user: str, folder: Path) -> None:
    """Runs README's blocks of one kind as a user, in a process of their own."""
    text = (HERE / "README.md").read_text(encoding="utf-8")
    account = pwd.getpwnam(user)
    child = os.fork()
    if child:
        status = os.waitstatus_to_exitcode(os.waitpid(child, 0)[1])
        counts.passed += status // 16
        counts.failed += status % 16
        return
    mine = Counts()
    try:
        os.initgroups(user, account.pw_gid)
        os.setgid(account.pw_gid)
        os.setuid(account.pw_uid)
        environment = {**ENVIRONMENT, "HOME": account.pw_dir, "USER": user, "LOGNAME": user}
        # (so redis-cli prints what it does on a terminal)
        environment["FAKETTY"] = "1"
        for block, wrong in walkthroughs.run_kind(text, kind, folder, environment):
            mine.note(f"README.md:{block.line}, run with {kind}", wrong)
        if not mine.passed + mine.failed:
            mine.note(f"README.md has no block that is run with {kind}", ["none"])
    except BaseException as wrong:  # noqa: BLE001
        mine.note(f"README.md, {kind}", [repr(wrong)])
    finally:
        os._exit(min(mine.passed, 15) * 16 + min(mine.failed, 15))


def start_server() -> None:
    binaries = sorted(Path("/usr/lib/postgresql").glob("*/bin"))[-1]
    SERVER.mkdir()
    os.chown(SERVER, pwd.getpwnam("postgres").pw_uid, 0)
    SERVER.chmod(0o755)
    run(str(binaries / "initdb"), "-D", f"{SERVER}/data", "-A", "trust", user="postgres")
    with open(SERVER / "data/postgresql.conf", "a") as file:
        file.write(
            f"wal_level = logical\nlisten_addresses = ''\nunix_socket_directories = '{SERVER}'\nfsync = off\n"
        )
    log = open(SERVER / "log", "w")
    words = ["runuser", "-u", "postgres", "--", str(binaries / "postgres"), "-D", f"{SERVER}/data"]
    subprocess.Popen(words, stdout=log, stderr=log)
    until = time.monotonic() + SECONDS
    while subprocess.run([binaries / "pg_isready", "-q"], env=ENVIRONMENT).returncode:
        if time.monotonic() > until:
            raise Wrong("the server doesn't start")
        time.sleep(0.2)
    run(
        "psql",
        "-q",
        "-c",
        f"CREATE ROLE {USER} LOGIN REPLICATION CREATEDB",
        "postgres",
        user="postgres",
    )


def start_redis() -> None:
    log = open("/tmp/redis.log", "w")
    words = ["runuser", "-u", USER, "--", "redis-server", "--save", ""]
    subprocess.Popen(words, stdout=log, stderr=log, cwd="/tmp")
    until = time.monotonic() + SECONDS
    while subprocess.run(["redis-cli", "ping"], capture_output=True).returncode:
        if time.monotonic() > until:
            raise Wrong("Redis doesn't start")
        time.sleep(0.2)


def rows(folder: Path) -> dict[str, str]:
    """The rows of the server's table, those of an export, and those of the tables that follow."""
    query = "SELECT sku, quantity FROM stock ORDER BY 1"
    found = {"the server": run("psql", "-At", "-c", query, "shop", user=USER)}
    run(
        "pgsub-connect",
        "export",
        "--store",
        str(folder / "copy.db"),
        "--into",
        str(folder / "export.db"),
        user=USER,
    )
    for what, name in (("the export", "export.db"), ("rows.db", "rows.db")):
        found[what] = run("sqlite3", str(folder / name), query, user=USER)
    return found


def wait_for_rows(folder: Path) -> None:
    until = time.monotonic() + SECONDS
    while len(set((found := rows(folder)).values())) > 1:
        if time.monotonic() > until:
            raise Wrong("\n".join(f"{what} has\n{it}" for what, it in found.items()))
        time.sleep(0.5)


def follows(following: Following) -> None:
    following.wait_for("following")
    wait_for_rows(following.folder)


def refused_dump(folder: Path) -> None:
    """The program doesn't open a store that the follower has open. Why, and what shows the rows
    meanwhile, is told before its own line."""
    words = ["runuser", "-u", USER, "--", "pgsub", "dump", "--store", str(folder / "copy.db")]
    ran = subprocess.run(words, env=ENVIRONMENT, capture_output=True, text=True)
    told = ran.stderr.splitlines()
    if (ran.returncode, ran.stdout, told[1:]) != (3, "", ["pgsub: store 8 Refused"]) or (
        "another process has" not in told[0] or "`pgsub-connect export`" not in told[0]
    ):
        raise Wrong(f"status {ran.returncode}: {ran.stdout}{ran.stderr}")


def upgrade(counts: Counts, folder: Path) -> None:
    """Installs the second build while the first one follows and the server changes. Nothing is
    lost."""
    insert = "INSERT INTO stock SELECT 'G-' || count(*), count(*) FROM stock"
    following = Following(folder)
    counts.tried("the first build follows", lambda: follows(following))
    counts.tried("dump says that the store is open", lambda: refused_dump(folder))

    def install() -> None:
        run("psql", "-q", "-c", insert, "shop", user=USER)
        run("apt-get", "-y", "-qq", "install", *(str(it) for it in (HERE / "second").iterdir()))
        if ".later" not in run("pgsub-connect", "--version"):
            raise Wrong("the version is the old one")
        told = run("pgsub-connect", "status", "--store", str(folder / "copy.db"), user=USER)
        if ".later" not in told or "is installed: start it again" not in told:
            raise Wrong(f"that the follower is of the old build isn't told: {told}")
        run("psql", "-q", "-c", insert, "shop", user=USER)

    counts.tried("the second build is installed", install)
    counts.tried("what ran goes on", lambda: wait_for_rows(folder))

    def refuse() -> None:
        for it in run("pgrep", "-u", USER, "-x", "pgsub").split():
            os.kill(int(it), signal.SIGKILL)
        status = following.process.wait(SECONDS)
        if status != 7 or "install both from one package" not in following.log.read_text():
            raise Wrong(f"status {status}: {following.said()}")

    counts.tried("the old connector doesn't start the new program", refuse)
    run("psql", "-q", "-c", insert, "shop", user=USER)
    second = Following(folder)
    counts.tried("the second build goes on from there", lambda: follows(second))
    counts.tried("it ends when it is asked to", second.stop)


def unpack_tar() -> None:
    """The tar file has the same, for /usr/local."""
    run(
        "tar",
        "-C",
        "/usr/local",
        "--strip-components=1",
        "-xzf",
        *(str(it) for it in HERE.glob("*.tar.gz")),
    )
    told = run("/usr/local/bin/pgsub-connect", "--version")
    if run("/usr/bin/pgsub-connect", "--version").replace(".later", "") != told:
        raise Wrong(told)
    run("/usr/local/bin/pgsub", "--help")
    if (
        "/usr/local/bin/pgsub-connect"
        not in Path("/usr/local/lib/systemd/system/pgsub@.service").read_text()
    ):
        raise Wrong("the unit file names another connector")


def check_installed() -> None:
    for page in ("pgsub", "pgsub-connect", "pgsub-feed"):
        run("man", "-w", page)
    run("systemd-analyze", "verify", "--man=no", *map(str, UNITS))
    for it in ("copyright", "changelog.gz", "alerts.yml"):
        if not Path("/usr/share/doc/pgsub", it).stat().st_size:
            raise Wrong(f"{it} is empty")


def reported() -> None:
    """The program, the connector and the package tell of one build."""
    said = run("pgsub", "--version").splitlines()[-1].removeprefix("commit ").partition(", ")[2]
    for text in (
        run("pgsub-connect", "--version"),
        run("dpkg-query", "-W", "-f", "${Description}", "pgsub"),
    ):
        if said not in text:
            raise Wrong(f"the program was built by {said}, and not told is that by: {text}")


def left_of(paths: Iterable[str]) -> None:
    if left := [it for it in paths if os.path.lexists(it)]:
        raise Wrong(f"left are {', '.join(left)}")


def accounts() -> list[str]:
    return [it.pw_name for it in pwd.getpwall() if it.pw_name.startswith("pgsub-")]


def make_accounts() -> None:
    """Makes two accounts as the unit does, of which one has a store."""
    (command,) = [it for it in UNITS[1].read_text().splitlines() if it.startswith("ExecStart=")]
    for name in ("shop", "gone"):
        run(*shlex.split(command.partition("=")[2].replace("%i", name)))
    Path("/var/lib/pgsub/shop").mkdir(parents=True)
    Path("/var/lib/pgsub/shop/copy.db").write_text("")
    Path("/var/lib/pgsub/gone").mkdir()
    Path("/etc/pgsub/shop.conf").write_text("PGPASSWORD=secret\n")


def removed() -> None:
    make_accounts()
    run("apt-get", "-y", "-qq", "remove", "pgsub")
    left_of(("/usr/lib/pgsub", "/usr/bin/pgsub", "/usr/bin/pgsub-connect", "/usr/bin/pgsub-feed"))


def purged() -> None:
    """What the package made goes with it; a store and its account stay until somebody removes the
    store."""
    run("apt-get", "-y", "-qq", "purge", "pgsub")
    left_of(("/etc/pgsub", "/run/pgsub", "/var/lib/pgsub/gone", "/usr/share/doc/pgsub"))
    if accounts() != ["pgsub-shop"] or not os.path.exists("/var/lib/pgsub/shop/copy.db"):
        raise Wrong(f"there are the accounts {accounts()}")


def main() -> int:
    counts = Counts()
    counts.tried("what the trial needs", prepared)
    counts.tried("without toolchain, checkout and psycopg", bare)
    run("useradd", "--create-home", USER)
    walk(counts, "package", "root", HERE / "first")
    counts.tried("manual pages, documents and units", check_installed)
    counts.tried("the program says what it was built of", reported)
    counts.tried("a server", start_server)
    folder = Path(f"/home/{USER}/walk")
    run("mkdir", str(folder), user=USER)
    walk(counts, "server", USER, folder)
    counts.tried("a Redis", start_redis)
    walk(counts, "redis", USER, folder)
    upgrade(counts, folder)
    try_faults(counts, Path(f"/home/{USER}/faults"))
    counts.tried("the tar file", unpack_tar)
    counts.tried("removed", removed)
    counts.tried("purged", purged)
    print(f"{counts.passed} passed, {counts.failed} failed")
    return int(counts.failed > 0 or not counts.passed)


if __name__ == "__main__":
    sys.exit(main())
