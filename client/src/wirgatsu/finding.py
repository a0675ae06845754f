"""Which files are read: those below the folders that are named, and those that a target names."""

from __future__ import annotations

import glob
import os
import re
from dataclasses import dataclass
from pathlib import Path
from typing import Dict, Iterator, List, Optional, Sequence

from .checkout import Checkout, checkout_of
from .errors import WordsError

USUAL_NAMES = ("catalog-info.yaml", "catalog-info.yml")
_PASSED_OVER = frozenset((".git", "node_modules"))


class TargetFault(ValueError):
    """A target that names no file that may be read. Its text says why."""

    def __init__(self, target: str, why: str) -> None:
        super().__init__(f"names {target}, {why}")


@dataclass(frozen=True)
class File:
    """A file to read: where it is, how it is shown, the folder that it may not lead out of, and where its branch of Locations began."""

    path: Path
    shown: str
    bound: Path
    origin: Optional[str] = None


def _pattern(text: str) -> "re.Pattern[str]":
    """A pattern of paths: `*` and `?` stay within a piece, `**` doesn't; one without a slash is that of the last piece."""
    text = text[2:] if text.startswith("./") else text
    parts = {"**/": "(?:.*/)?", "**": ".*", "*": "[^/]*", "?": "[^/]"}
    pieces = re.split(r"(\*\*/|\*\*|\*|\?)", text if "/" in text else "**/" + text)
    return re.compile("".join(parts.get(piece, re.escape(piece)) for piece in pieces))


def files_below(folder: str, patterns: Sequence[str], excluded: Sequence[str], bound: Path) -> Iterator[File]:
    """The files below a folder that a pattern matches, in order of their paths, without those that are excluded or in an excluded folder."""
    wanted, unwanted = [[_pattern(text) for text in texts] for texts in (patterns, excluded)]
    top, real_top = os.path.join(folder, ""), os.path.realpath(folder)
    for place, folders, names in os.walk(top):
        below = os.path.join(place, "")[len(top):]
        folders[:] = sorted(name for name in folders if name not in _PASSED_OVER and not _matches(unwanted, below + name))
        for name in sorted(names):
            inside = below + name
            if _matches(wanted, inside) and not _matches(unwanted, inside):
                shown = os.path.join(place, name)
                # no folder on the way is a link, so only the file itself can be one
                real = os.path.realpath(shown) if os.path.islink(shown) else os.path.join(real_top, inside)
                yield File(Path(real), os.path.normpath(shown), bound)


def _matches(patterns: "List[re.Pattern[str]]", inside: str) -> bool:
    return any(pattern.fullmatch(inside.replace(os.sep, "/")) for pattern in patterns)


class Finder:
    """Finds files, and remembers which checkout each folder is in."""

    def __init__(self, forge: Optional[str] = None, branch: Optional[str] = None) -> None:
        self._forge = forge
        self._branch = branch
        self._tops: Dict[str, Optional[str]] = {}
        self._checkouts: Dict[str, Optional[Checkout]] = {}

    def checkout(self, folder: Path) -> Optional[Checkout]:
        """The checkout that the folder is in."""
        top = self._top(str(folder))
        if top is None:
            return None
        if top not in self._checkouts:
            self._checkouts[top] = checkout_of(Path(top), self._forge, self._branch)
        return self._checkouts[top]

    def _top(self, folder: str) -> Optional[str]:
        """The nearest folder upwards that git keeps."""
        if folder not in self._tops:
            above = os.path.dirname(folder)
            here = os.path.exists(os.path.join(folder, ".git"))
            self._tops[folder] = folder if here else self._top(above) if above != folder else None
        return self._tops[folder]

    def roots(self, paths: Sequence[str], patterns: Sequence[str], excluded: Sequence[str] = ()) -> List[File]:
        """The files that the words of the command line name."""
        found: List[File] = []
        for path in paths:
            real = Path(os.path.realpath(path))
            if real.is_dir():
                found += files_below(path, patterns, excluded, self._bound(real))
            elif real.exists():
                found.append(File(real, os.path.normpath(path), self._bound(real.parent)))
            else:
                raise WordsError(f"{path} is neither a file nor a folder")
        return found

    def _bound(self, folder: Path) -> Path:
        checkout = self.checkout(folder)
        return checkout.top if checkout else folder

    def named(self, file: File, target: str) -> Path:
        """The file that a target in another file names."""
        path = self._path(file, target)
        self._test_inside(file, target, path)
        return path

    def matching(self, file: File, target: str) -> List[Path]:
        """The files that a target names, which may be a pattern; there is one at least."""
        path = self._path(file, target, keep_pattern=True)
        if not glob.has_magic(target):
            found = [Path(os.path.realpath(path))]
            if not found[0].exists():
                raise TargetFault(target, "and there is no such file")
        else:
            found = [Path(os.path.realpath(match)) for match in sorted(glob.glob(str(path), recursive=True))]
            if not found:
                raise TargetFault(target, "and no file matches it")
        for match in found:
            self._test_inside(file, target, match)
        return found

    def _path(self, file: File, target: str, keep_pattern: bool = False) -> Path:
        folder = file.path.parent
        bound = Path(glob.escape(str(file.bound))) if keep_pattern else file.bound
        if re.match(r"[A-Za-z][A-Za-z0-9+.-]*://", target):
            return self._path_of_address(folder, target)
        if target.startswith("/"):
            absolute = Path(target)
            return absolute if _is_inside(absolute, file.bound) else bound / target.lstrip("/")
        return (Path(glob.escape(str(folder))) if keep_pattern else folder) / target

    def _path_of_address(self, folder: Path, target: str) -> Path:
        checkout = self.checkout(folder)
        path = checkout.local_path(target) if checkout else None
        if path is None:
            raise TargetFault(target, "which is outside this checkout and isn't fetched")
        return path

    @staticmethod
    def _test_inside(file: File, target: str, path: Path) -> None:
        if not _is_inside(path, file.bound):
            raise TargetFault(target, f"which leads out of {file.bound}")


def _is_inside(path: Path, bound: Path) -> bool:
    real = os.path.realpath(path)
    return os.path.commonpath((real, str(bound))) == str(bound)


def shown_path(path: Path) -> str:
    """The path as a person would write it from here."""
    relative = os.path.relpath(path)
    return str(path) if relative.startswith("..") else relative
