"""The parts of a Markdown text: prose, code spans, fenced blocks, headings and links."""

import re
from dataclasses import dataclass

FENCE = re.compile(r"^(?:```|~~~)")
SPAN = re.compile(r"(`+)(.+?)\1")
LINK = re.compile(r"!?\[[^\]]*\]\(([^)\s]+)(?:\s+\"[^\"]*\")?\)")
SOURCE = re.compile(r"<(?:img|source|a)\b[^>]*?\b(?:src|srcset|href)=\"([^\"]+)\"")
COMMENT = re.compile(r"<!--.*?-->")
HEADING = re.compile(r"^#{1,6}\s+(.*?)\s*#*$")


@dataclass(frozen=True)
class Line:
    """A line of a text, counted from 1, and whether it is in a fenced block."""

    number: int
    text: str
    is_code: bool


def lines_of(text: str) -> list[Line]:
    """The lines of a text, without comments. Those with the fences themselves are left out."""
    lines, is_code = [], False
    for number, line in enumerate(text.splitlines(), 1):
        if FENCE.match(line.lstrip()):
            is_code = not is_code
        else:
            lines.append(Line(number, line if is_code else COMMENT.sub("", line), is_code))
    return lines


def words_of(data: bytes) -> int:
    """How many words `wc -w` counts."""
    return len(data.split())


def spans_of(line: str) -> list[str]:
    """The code spans of a line of prose."""
    return [it[2].strip() for it in SPAN.finditer(line)]


def links_of(line: str) -> list[str]:
    """The targets of the links and pictures in a line of prose. Those in code spans are none."""
    bare = SPAN.sub("", line)
    return [it[1] for it in LINK.finditer(bare)] + [it[1] for it in SOURCE.finditer(bare)]


def slug_of(heading: str) -> str:
    """The anchor of a heading, as forges make it."""
    shown = re.sub(r"\[([^\]]*)\]\([^)]*\)", r"\1", heading).replace("`", "")
    return re.sub(r"[^\w\- ]", "", shown.lower(), flags=re.UNICODE).replace(" ", "-")


def anchors_of(text: str) -> set[str]:
    """The anchors of a text's headings. A second heading of one name gets a number."""
    found: dict[str, int] = {}
    anchors = set()
    for line in lines_of(text):
        heading = None if line.is_code else HEADING.match(line.text)
        if heading:
            slug = slug_of(heading[1])
            count = found.get(slug, 0)
            found[slug] = count + 1
            anchors.add(f"{slug}-{count}" if count else slug)
    return anchors


def section_of(text: str, heading: str) -> str:
    """The text under a heading of the second level."""
    return f"\n{text}".partition(f"\n## {heading}\n")[2].partition("\n## ")[0]
