"""What is shown: colours and tables on standard output, progress on standard error."""
from __future__ import annotations

import os
import sys
import time
from typing import List, Optional, Sequence

_CODES = {"red": "31", "green": "32", "yellow": "33", "blue": "34", "bold": "1", "dim": "2"}


def has_colours() -> bool:
    """Whether standard output is a terminal on which colours are wanted."""
    return sys.stdout.isatty() and "NO_COLOR" not in os.environ and os.environ.get("TERM") != "dumb"


def paint(text: str, colour: str) -> str:
    """A text in a colour, where there are colours."""
    return f"\x1b[{_CODES[colour]}m{text}\x1b[0m" if text and has_colours() else text


def say(text: str) -> None:
    """A line on standard error."""
    print(f"fabric: {text}", file=sys.stderr, flush=True)


def counted(count: int, word: str, words: Optional[str] = None) -> str:
    """A number and its word, as `1 link` and `2 links`."""
    return f"{count} {word if count == 1 else words or word + 's'}"


def table(rows: Sequence[Sequence[str]], indent: str = "", right: Sequence[int] = ()) -> List[str]:
    """The lines of a table; the columns of the numbers in `right` stand at the right."""
    widths = [max(len(row[column]) for row in rows if column < len(row)) for column in range(max(map(len, rows)))]
    lines = []
    for row in rows:
        cells = (
            cell.rjust(width) if column in right else cell.ljust(width)
            for column, (cell, width) in enumerate(zip(row, widths))
        )
        lines.append((indent + "  ".join(cells)).rstrip())
    return lines


class Progress:
    """A line on standard error that says how far a run is, where it takes more than two seconds and that is a
    terminal."""

    PATIENCE = 2.0

    def __init__(self, total: int) -> None:
        self.total = total
        self.begun = time.monotonic()
        self.told = self.begun + self.PATIENCE - 0.2
        self.is_shown = False
        self.is_terminal = sys.stderr.isatty()

    def __enter__(self) -> "Progress":
        return self

    def at(self, index: int) -> None:
        """The line of this index is done."""
        if not self.is_terminal or index % 16:
            return
        now = time.monotonic()
        if now - self.told >= 0.2:
            self.told, self.is_shown = now, True
            sys.stderr.write(f"\rfabric: line {index:,} of {self.total:,}, {now - self.begun:.0f} seconds ")
            sys.stderr.flush()

    def __exit__(self, *_: object) -> None:
        if self.is_shown:
            sys.stderr.write("\r" + " " * 60 + "\r")
            sys.stderr.flush()
