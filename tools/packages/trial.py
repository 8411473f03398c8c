"""The packages tried where neither checkout nor toolchain is: on a copy of this machine's files, or on
those of an empty Debian."""

import os
import re
import shlex
import shutil
import subprocess
from collections.abc import Sequence
from pathlib import Path

from built import TOP

from . import Build, Failed, digest, make_packages

# Makes a copy of the files below a folder in which what is hidden isn't there, and runs the trial in it.
INSIDE = """\
set -eu
mount -t tmpfs -o size=4g tmpfs {room}
mkdir {room}/upper {room}/work {room}/root
mount -t overlay overlay -o lowerdir={lower},upperdir={room}/upper,workdir={room}/work {room}/root
for it in tmp run var/tmp root home; do mount -t tmpfs tmpfs {room}/root/$it; done
chmod 1777 {room}/root/tmp {room}/root/var/tmp
mount -t proc proc {room}/root/proc
mount --rbind /dev {room}/root/dev
for it in {hidden}; do
    if [ -d "{room}/root$it" ]; then mount -t tmpfs tmpfs "{room}/root$it"; else rm -f "{room}/root$it"; fi
done
mkdir {room}/root/tmp/trial
cp -R {trial}/. {room}/root/tmp/trial
chmod -R a+rX {room}/root/tmp/trial
cd /
exec chroot {room}/root /usr/bin/env -i LC_ALL=C.UTF-8 HOME=/root \\
    PATH=/usr/local/sbin:/usr/local/bin:/usr/sbin:/usr/bin:/sbin:/bin /usr/bin/python3 /tmp/trial/inside.py
"""


def hidden() -> list[str]:
    """The folders of checkout and toolchain, and the toolchain's command."""
    found = [str(TOP)]
    words = ["git", "-C", str(TOP), "rev-parse", "--path-format=absolute", "--git-common-dir"]
    ran = subprocess.run(words, capture_output=True, text=True, check=False)
    found += [os.path.dirname(ran.stdout.strip())] if ran.returncode == 0 else []
    rt = shutil.which(os.environ.get("RT") or "rt")
    if rt:
        found += [rt, str(Path(os.path.realpath(rt)).parent.parent)]
    return found


def mirror() -> str:
    """Where apt of this machine takes its own release from."""
    release = re.search(r"^VERSION_CODENAME=(\S+)", Path("/etc/os-release").read_text(), re.M)
    words = ["apt-get", "indextargets", "--format", "$(RELEASE) $(COMPONENT) $(REPO_URI)"]
    told = subprocess.run(words, capture_output=True, text=True, check=True).stdout
    for line in told.splitlines():
        if release and line.startswith(f"{release[1]} main "):
            return line.split()[2]
    raise Failed("apt has no mirror of this machine's release")


def make_empty(suite: str, folder: Path) -> Path:
    """The files of a Debian that has only what every Debian has, and Python, which runs the trial."""
    words = ["debootstrap", "--variant=minbase", "--include=python3", suite, str(folder), mirror()]
    ran = subprocess.run(words, capture_output=True, text=True, check=False)
    if ran.returncode:
        raise Failed(f"debootstrap made no {suite}: {ran.stdout[-2000:]} {ran.stderr[-2000:]}")
    return folder


def check_same(first: Path, second: Path) -> None:
    """The same build makes the same bytes."""
    if (first / "SHA256SUMS").read_text() != (second / "SHA256SUMS").read_text():
        raise Failed(f"the packages of {first} and {second} differ")
    for line in (first / "SHA256SUMS").read_text().splitlines():
        sum_of, name = line.split("  ")
        if digest(first / name) != sum_of:
            raise Failed(f"{first / name} hasn't the sum that SHA256SUMS has")


def run_trial(lower: Path, hides: Sequence[str], trial: Path, mounted: Path) -> int:
    """Runs the trial over the files below a folder, which stay as they are; the exit status."""
    mounted.mkdir()
    text = INSIDE.format(
        lower=shlex.quote(str(lower)),
        room=shlex.quote(str(mounted)),
        trial=shlex.quote(str(trial)),
        hidden=" ".join(map(shlex.quote, hides)),
    )
    return subprocess.run(
        ["unshare", "--mount", "--pid", "--fork", "--kill-child", "sh", "-c", text], check=False
    ).returncode


def try_packages(build: Build, out: Path, room: Path, suites: Sequence[str]) -> int:
    """Tries them, on this machine's files and on those of each suite; the exit status."""
    if os.geteuid():
        raise Failed("--test is for root")
    again, later, trial = (room / it for it in ("again", "later", "trial"))
    for it in (again, later, trial):
        it.mkdir()
    make_packages(build, again)
    check_same(out, again)
    print("the packages can be made again, byte for byte", flush=True)
    make_packages(build.later(), later)
    for name, folder in (("first", out), ("second", later)):
        version = build.version if folder is out else build.later().version
        (trial / name).mkdir()
        shutil.copy(folder / f"pgsub_{version}_amd64.deb", trial / name)
    shutil.copy(out / f"pgsub-{build.version}-x86_64.tar.gz", trial)
    shutil.copy(TOP / "README.md", trial)
    for package in ("documents", "trying"):
        shutil.copytree(TOP / "tools" / package, trial / package)
    shutil.copy(TOP / "tools/packages/inside.py", trial)
    if not suites:
        return run_trial(Path("/"), hidden(), trial, room / "mounted")
    status = 0
    for suite in suites:
        print(f"on an empty {suite}:", flush=True)
        lower = make_empty(suite, room / suite)
        status |= run_trial(lower, (), trial, room / f"mounted-{suite}")
    return status
