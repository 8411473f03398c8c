"""A release: packages, source, statement, what is linked, and the sums of all of them."""

import gzip
import re
import shutil
import subprocess
import tempfile
from dataclasses import replace
from pathlib import Path

from built import TOP

from . import Build, Failed, digest, lines_of, make_packages, run, version_of_sources
from .linked import kit_folder, linked
from .sbom import Release, document

PROGRAM_VERSION = re.compile(r'^pub const VERSION: &str = "(.*)";$', re.M)
STEPS = """\
Sign the sums, and the commit:
  $ cd {out}
  $ gpg --armor --detach-sign SHA256SUMS
  $ git tag --sign --message='pgsub {version}' v{version}
Whoever has the files checks them, with the key that SECURITY.md names:
  $ gpg --verify SHA256SUMS.asc SHA256SUMS
  $ sha256sum --check SHA256SUMS"""


def check_checkout(version: str) -> None:
    """Raises Failed where the checkout isn't the commit as it is, or is of another version."""
    changed = run("git", "-C", TOP, "status", "--porcelain")
    if changed:
        raise Failed(f"the checkout has changes:\n{changed}")
    program = PROGRAM_VERSION.search(
        (TOP / "crates/pgcommand/src/commands.rt").read_text(encoding="utf-8")
    )
    for what, found in (
        ("the connector", version_of_sources()),
        ("the program", program[1] if program else "unknown"),
    ):
        if found != version:
            raise Failed(f"{what} has the version {found}, and not {version}")
    headings = re.findall(r"^## (.+)$", (TOP / "CHANGELOG.md").read_text(encoding="utf-8"), re.M)
    if not any(re.fullmatch(rf"{re.escape(version)} \(\d{{4}}-\d\d-\d\d\)", it) for it in headings):
        raise Failed(f"CHANGELOG.md has no heading `## {version} (DATE)`")


def make_source(version: str, out: Path) -> Path:
    """The files of the commit."""
    path = out / f"pgsub-{version}-source.tar.gz"
    words = ["git", "-C", str(TOP), "archive", "--format=tar", f"--prefix=pgsub-{version}/", "HEAD"]
    plain = subprocess.run(words, stdout=subprocess.PIPE, check=True).stdout
    path.write_bytes(gzip.compress(plain, mtime=0))
    return path


def make_statement(version: str, out: Path) -> Path:
    path = out / f"pgsub-{version}-statement.html"
    run(TOP / "tools/statement", "--html", path)
    return path


def make_sbom(build: Build, made: list[Path], out: Path) -> Path:
    kit = kit_folder()
    if kit is None:
        raise Failed(
            "what the program is linked of is told by the toolchain, which isn't on the path"
        )
    commit = run("git", "-C", TOP, "rev-parse", "HEAD")
    sums = {it.name: digest(it) for it in made}
    needs = {name: f">= {version}" for name, version in build.needs.items()}
    path = out / f"pgsub-{build.version}.spdx.json"
    path.write_text(
        document(Release(build.version, commit, build.kit, build.time, sums, needs), linked(kit)),
        encoding="utf-8",
    )
    return path


def check_package(package: Path) -> None:
    """Raises Failed where lintian finds an error in a package."""
    if shutil.which("lintian") is None:
        raise Failed("lintian isn't installed (Debian: apt-get install lintian)")
    ran = subprocess.run(
        ["lintian", "--fail-on", "error", "--tag-display-limit", "0", package],
        capture_output=True,
        text=True,
        check=False,
    )
    if ran.returncode:
        raise Failed(f"lintian: status {ran.returncode}\n{ran.stdout}{ran.stderr}")


def make_release(program: Path, version: str, out: Path) -> list[Path]:
    """Makes all files of a release. Nothing is left where one can't be made."""
    build = replace(Build.of_checkout(program), version=version)
    with tempfile.TemporaryDirectory(prefix="pgsub-release-") as folder:
        room = Path(folder)
        made = [it for it in make_packages(build, room) if it.name != "SHA256SUMS"]
        check_package(made[0])
        made += [make_source(version, room), make_statement(version, room)]
        made.append(make_sbom(build, made, room))
        (room / "SHA256SUMS").write_text(lines_of(made))
        return [Path(shutil.copy(it, out)) for it in (*made, room / "SHA256SUMS")]
