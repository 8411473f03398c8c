"""What a watch prints of the sessions of a recording, and whether it is what the model finds."""

from collections.abc import Sequence

from .judging import RULES, Ending, Verdict

UNWATCHED = "rule 1 not watched: follow --repeats compares commits that come again"


def lines_of(verdict: Verdict, ending: Ending, tried: set[str]) -> list[str]:
    """The lines for a session that ends so, and tries these rules."""
    at = verdict.at
    lines = ["session"]
    for rule in RULES:
        if ending.rule == rule:
            standing = f"broken at {at}"
        elif not verdict.is_watched():
            standing = f"not watched from {at} on"
        else:
            standing = "kept" if rule in tried else "not seen"
            standing += "" if at is None else f" before {at}"
        lines.append(f"{rule} {standing}")
    lines.insert(2, UNWATCHED)
    return [*lines, f"ends with {ending.told}"]


def sessions_of(text: str) -> list[list[str]]:
    """The lines of each session."""
    sessions: list[list[str]] = []
    for line in text.splitlines():
        if line == "session" or not sessions:
            sessions.append([])
        sessions[-1].append(line)
    return sessions


def session_difference(lines: list[str], verdict: Verdict) -> str | None:
    """How the lines of a session differ from what the model finds of it."""
    known = lines[-1].removeprefix("ends with ") if lines else ""
    ending = next((it for it in verdict.endings if it.told == known), verdict.endings[0])
    wanted = [lines_of(verdict, ending, verdict.tried)]
    maybe = verdict.maybe - verdict.tried
    wanted += [lines_of(verdict, ending, verdict.tried | {it}) for it in sorted(maybe)]
    wanted.append(lines_of(verdict, ending, verdict.tried | maybe))
    if lines in wanted:
        return None
    shown = [f"{one} | {other}" for one, other in zip(lines, wanted[0]) if one != other]
    return "; ".join(shown) or f"{len(lines)} lines, not {len(wanted[0])}"


def status_of(verdicts: Sequence[Verdict]) -> int:
    return 4 if any(it.is_broken() or not it.is_watched() for it in verdicts) else 0


def differences(status: int, text: str, verdicts: Sequence[Verdict]) -> list[str]:
    """How a status and what was printed differ from what the model finds of the sessions."""
    found = []
    sessions = sessions_of(text)
    if len(sessions) != len(verdicts):
        found.append(f"{len(sessions)} sessions, not {len(verdicts)}")
    for number, (lines, verdict) in enumerate(zip(sessions, verdicts), 1):
        told = session_difference(lines, verdict)
        if told:
            found.append(f"session {number}: the program | the model: {told}")
    if status != status_of(verdicts):
        found.append(f"status {status}, not {status_of(verdicts)}")
    return found
