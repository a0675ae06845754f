"""Where something stands in a file, and what is wrong there."""

from __future__ import annotations

from dataclasses import dataclass
from typing import Optional, Tuple, Union

# The way to a part of a document: keys of maps and positions in lists.
Path = Tuple[Union[str, int], ...]


def dotted(path: Path) -> str:
    """The path as the catalogue writes it."""
    return ".".join(str(step) for step in path)


@dataclass(frozen=True, order=True)
class Place:
    """A line and a column of a file, both from 1; without them it is the file, or whatever else is named."""

    source: str
    line: Optional[int] = None
    column: Optional[int] = None

    def __str__(self) -> str:
        if self.line is None:
            return self.source
        return f"{self.source}:{self.line}:{self.column}"


@dataclass(frozen=True)
class Problem:
    """What can't be brought in, where it stands, and why."""

    place: Place
    message: str
    reference: Optional[str] = None

    def __str__(self) -> str:
        return f"{self.place}: {self.message}"


@dataclass(frozen=True)
class Breach:
    """A part of a descriptor that isn't as it must be."""

    path: Path
    message: str
