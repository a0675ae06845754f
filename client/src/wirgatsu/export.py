"""Writes what the catalogue has as files that a push takes back."""

from __future__ import annotations

import os
import sys
from typing import Any, Dict, Iterator, List, Optional, TextIO

from .entities import targets_of, without_made, without_mark
from .errors import OK
from .server import Server
from .terminal import Progress, counted, say
from .yaml_writer import in_usual_order, written_documents


def export(server: Server, filters: List[str], path: Optional[str]) -> int:
    """Writes all entities that a filter matches, to standard output, or to a file that is there whole or not at all."""
    exported = _Export(server, filters)
    if path is None:
        for text in exported.texts(None):
            sys.stdout.write(text)
    else:
        with open(path + ".part", "w", encoding="utf-8") as stream:
            exported.write(stream)
        os.replace(path + ".part", path)
        print(f"{counted(exported.count, 'entity', 'entities')} in {path}.")
    if exported.reading_locations:
        say(f"{counted(exported.reading_locations, 'Location reads', 'Locations read')} texts from the shelf, which can't be exported.")
    return OK


class _Export:
    """One export, and what was counted in it."""

    def __init__(self, server: Server, filters: List[str]) -> None:
        self.count = 0
        self.reading_locations = 0
        self._server = server
        self._filters = filters

    def write(self, stream: TextIO) -> None:
        """Writes the file, with its progress."""
        with Progress("exporting") as progress:
            for text in self.texts(progress):
                stream.write(text)
                progress.at(self.count)

    def texts(self, progress: Optional[Progress]) -> Iterator[str]:
        """The entities, one document of YAML each."""
        def count(total: int) -> None:
            if progress:
                progress.total = total

        documents = self._server.documents([("filter", text) for text in self._filters], count)
        return written_documents(map(self._descriptor, documents))

    def _descriptor(self, document: Dict[str, Any]) -> Dict[str, Any]:
        self.count += 1
        if document["kind"] == "Location" and targets_of(document) and document["spec"].get("presence") != "optional":
            self.reading_locations += 1
        return in_usual_order(without_mark(without_made(document)))
