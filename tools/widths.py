"""How wide the lines of the crates are.

Code, comments and imports have at most 100 columns, definitions and proofs 140. Text in quotes is
left out, since it can't be broken, and attributes, which `rt fmt` joins.
"""

from collections.abc import Iterator
from pathlib import Path

WIDEST = {".rt": 100, ".antt": 140}
WIDEST_PROSE = 100
PROSE = ("-- ", "use ", "pub use ")


def widest(kind: str, line: str) -> int:
    """How many columns a line may have in a file of this kind."""
    return WIDEST_PROSE if line.lstrip().startswith(PROSE) else WIDEST[kind]


def wide_lines(kind: str, text: str) -> list[int]:
    """The numbers of a text's lines that have too many columns, beginning with 1."""
    return [
        number
        for number, line in enumerate(text.splitlines(), 1)
        if len(line) > widest(kind, line) and '"' not in line and not line.lstrip().startswith("#[")
    ]


def sources(crates: Path) -> Iterator[Path]:
    """The code, definitions and proofs of each crate, but nothing that a build leaves."""
    for folder in ("src", "specs", "proofs"):
        for file in sorted(crates.glob(f"*/{folder}/**/*")):
            if file.suffix in WIDEST:
                yield file


def wrong_widths(crates: Path) -> list[str]:
    """Where a line is too wide."""
    return [
        f"{file.relative_to(crates)}:{number}: too wide"
        for file in sources(crates)
        for number in wide_lines(file.suffix, file.read_text(encoding="utf-8"))
    ]
