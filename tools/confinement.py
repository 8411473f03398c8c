"""The system calls that a unit of systemd leaves to its processes, taken from this one."""

import errno
import mmap
import socket
import subprocess
from collections.abc import Iterable

import seccomp  # type: ignore[import]

# `mprotect` and `shmat` with these flags make memory that can be executed.
SHM_EXEC = 0o100000
# A socket's family is its first argument; beyond these numbers there is none.
FAMILIES = 64


def settings_of(unit: str) -> dict[str, list[str]]:
    """The values of each setting of a unit, in the order in which they stand."""
    found: dict[str, list[str]] = {}
    for line in unit.splitlines():
        name, equals, value = line.partition("=")
        if equals and not line.startswith("#"):
            found.setdefault(name, []).append(value)
    return found


def groups() -> dict[str, list[str]]:
    """What is in each group such as `@system-service`: system calls, and other groups."""
    printed = subprocess.run(
        ["systemd-analyze", "syscall-filter", "--no-pager"],
        capture_output=True,
        text=True,
        check=True,
    ).stdout
    found: dict[str, list[str]] = {}
    members: list[str] = []
    for line in printed.splitlines():
        if line.startswith("@"):
            members = found[line] = []
        elif (name := line.strip()) and not name.startswith("#"):
            members.append(name)
    return found


def calls_of(name: str, known: dict[str, list[str]]) -> set[str]:
    """A call itself, or those of a group."""
    return (
        {name}.union(*(calls_of(it, known) for it in known[name]))
        if name.startswith("@")
        else {name}
    )


def allowed_by(filters: Iterable[str]) -> set[str]:
    """What lines of SystemCallFilter leave: each allows, or takes away where it begins with `~`."""
    known = groups()
    allowed = calls_of("@default", known)
    for line in filters:
        names = {call for name in line.removeprefix("~").split() for call in calls_of(name, known)}
        allowed = allowed - names if line.startswith("~") else allowed | names
    return allowed


def confine(settings: dict[str, list[str]]) -> None:
    """Takes the other calls from this process, and from all that it starts."""
    allowed = allowed_by(settings["SystemCallFilter"])
    if settings.get("MemoryDenyWriteExecute") == ["yes"]:
        deny_executable_memory()
    if "RestrictAddressFamilies" in settings:
        deny_families(
            {
                getattr(socket, it)
                for line in settings["RestrictAddressFamilies"]
                for it in line.split()
            }
        )
    # (the last one: it takes what loads the others)
    allow_calls(allowed, seccomp.ERRNO(getattr(errno, settings["SystemCallErrorNumber"][-1])))


def allow_calls(allowed: Iterable[str], denied: int) -> None:
    calls = seccomp.SyscallFilter(defaction=denied)
    for name in sorted(it for it in allowed if not it.startswith("@")):
        # (some are of other processors)
        if seccomp.resolve_syscall(seccomp.Arch.NATIVE, name) >= 0:
            calls.add_rule(seccomp.ALLOW, name)
    calls.load()


def deny_executable_memory() -> None:
    calls = seccomp.SyscallFilter(defaction=seccomp.ALLOW)
    written = mmap.PROT_WRITE | mmap.PROT_EXEC
    denied = seccomp.ERRNO(errno.EPERM)
    calls.add_rule(denied, "mmap", seccomp.Arg(2, seccomp.MASKED_EQ, written, written))
    for name, flag in (
        ("mprotect", mmap.PROT_EXEC),
        ("pkey_mprotect", mmap.PROT_EXEC),
        ("shmat", SHM_EXEC),
    ):
        calls.add_rule(denied, name, seccomp.Arg(2, seccomp.MASKED_EQ, flag, flag))
    calls.load()


def deny_families(allowed: set[int]) -> None:
    calls = seccomp.SyscallFilter(defaction=seccomp.ALLOW)
    for family in set(range(FAMILIES)) - allowed:
        calls.add_rule(
            seccomp.ERRNO(errno.EAFNOSUPPORT), "socket", seccomp.Arg(0, seccomp.EQ, family)
        )
    calls.load()
