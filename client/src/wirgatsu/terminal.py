"""What people see: tables, colours, progress and questions."""

from __future__ import annotations

import os
import sys
import time
from typing import Iterable, List, Optional, Sequence, TextIO

from .errors import WordsError

_COLOURS = {"green": "32", "yellow": "33", "red": "31", "dim": "2", "bold": "1"}
_PLAIN_LINE_EVERY = 5.0
_BAR_EVERY = 0.1


def wants_colour(stream: TextIO) -> bool:
    """The stream is a terminal, and NO_COLOR doesn't say otherwise."""
    return stream.isatty() and not os.environ.get("NO_COLOR") and os.environ.get("TERM") != "dumb"


def coloured(text: str, colour: str, stream: Optional[TextIO] = None) -> str:
    """The text in a colour, where the stream shows any."""
    return f"\x1b[{_COLOURS[colour]}m{text}\x1b[0m" if wants_colour(stream or sys.stdout) else text


def table(head: Sequence[str], rows: Iterable[Sequence[str]]) -> str:
    """Rows in columns as wide as they must be, under a head."""
    lines = [list(head)] + [[str(cell) for cell in row] for row in rows]
    widths = [max(len(line[column]) for line in lines) for column in range(len(head))]
    shown = ["   ".join(cell.ljust(width) for cell, width in zip(line, widths)).rstrip() for line in lines]
    return "\n".join([coloured(shown[0], "bold")] + shown[1:])


def say(text: str) -> None:
    """A line on standard error."""
    print(text, file=sys.stderr)


def counted(count: int, one: str, many: Optional[str] = None) -> str:
    """A number with its word."""
    return f"{count:,} {one if count == 1 else many or one + 's'}"


class Progress:
    """How far a long task is: a bar on a terminal, and elsewhere a line now and then."""

    def __init__(self, label: str, total: Optional[int] = None, stream: Optional[TextIO] = None) -> None:
        self.label, self.total = label, total
        self._stream = stream or sys.stderr
        self._terminal = self._stream.isatty()
        self._shown_at = time.monotonic()
        self._drawn = False

    def __enter__(self) -> Progress:
        if self._terminal:
            self._draw(0)
        return self

    def __exit__(self, *fault: object) -> None:
        if self._drawn:
            self._stream.write("\r\x1b[K")
            self._stream.flush()

    def at(self, done: int) -> None:
        """Shows that so much is done, if it is time to."""
        now = time.monotonic()
        if now - self._shown_at < (_BAR_EVERY if self._terminal else _PLAIN_LINE_EVERY):
            return
        self._shown_at = now
        if self._terminal:
            self._draw(done)
        else:
            self._stream.write(f"{self.label}: {self._numbers(done)}\n")
            self._stream.flush()

    def _draw(self, done: int) -> None:
        self._stream.write("\r\x1b[K" + self._bar(done))
        self._stream.flush()
        self._drawn = True

    def _numbers(self, done: int) -> str:
        return f"{done:,} of {self.total:,}" if self.total else f"{done:,}"

    def _bar(self, done: int) -> str:
        if not self.total:
            return f"{self.label} {done:,}"
        filled = min(30, 30 * done // self.total)
        return f"{self.label} [{'#' * filled}{'.' * (30 - filled)}] {self._numbers(done)}"


def confirmed(question: str, yes: bool) -> bool:
    """The answer to a question; `yes` answers it, and without a terminal nobody else can."""
    if yes:
        return True
    if not sys.stdin.isatty():
        raise WordsError("nothing was changed: nobody can be asked here, so --yes must be given")
    sys.stderr.write(f"{question} [y/N] ")
    sys.stderr.flush()
    return sys.stdin.readline().strip().lower() in ("y", "yes")


def print_problems(problems: Iterable[object]) -> None:
    """Each problem in a line on standard error."""
    for problem in problems:
        say(str(problem))


def joined(values: List[str], most: int = 3) -> str:
    """The first few of many values."""
    rest = f" and {len(values) - most} more" if len(values) > most else ""
    return ", ".join(values[:most]) + rest
