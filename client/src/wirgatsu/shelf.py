"""Puts files as texts on the shelf, with Locations that name them, so that the catalogue processes them itself."""

from __future__ import annotations

import glob
from dataclasses import dataclass, field, replace
from typing import Any, Dict, List, Sequence, Set

from .block_yaml import is_block_yaml
from .entities import MANAGED_BY, PROVIDER, compact, entity_of, targets_of
from .errors import REFUSED
from .finding import File, Finder
from .names import is_shelf_name
from .places import Place
from .push import Options, Push
from .reading import FileReader, Reading, Settings
from .rules import MOST_TARGETS
from .server import Server
from .terminal import Progress, confirmed, counted, say
from .yaml_reader import Document


@dataclass
class _Text:
    """One file: its bytes, the descriptors to be had from it, and whether these are other than what stands in it."""

    data: bytes
    descriptors: List[Dict[str, Any]] = field(default_factory=list)
    differs: bool = False

    @property
    def is_kept(self) -> bool:
        """The file's own text goes to the shelf."""
        return not self.differs and is_block_yaml(self.data.decode("utf-8", "replace"))

    def body(self) -> bytes:
        """What is put on the shelf."""
        return self.data if self.is_kept else compact(self.descriptors)


class ShelfReader(FileReader):
    """Reads files as a push does, and keeps each as a text."""

    def __init__(self, settings: Settings, finder: Finder) -> None:
        super().__init__(settings, finder)
        self.texts: Dict[str, _Text] = {}
        self._current = _Text(b"")

    def _read_file(self, file: File) -> None:
        name = self.location_of(file.path)
        if not is_shelf_name(name):
            self.reading.refuse(Place(file.shown), f"its name on the shelf would be {name}, which is none", None)
            return
        problems = len(self.reading.problems)
        self._current = _Text(b"")
        super()._read_file(file)
        self._current.differs = self._current.differs or len(self.reading.problems) > problems
        if self._current.descriptors:
            self.texts[name] = self._current

    def _data(self, file: File) -> bytes:
        self._current.data = super()._data(file)
        return self._current.data

    def _bring_in(self, file: File, document: Document, descriptor: Dict[str, Any]) -> None:
        given = descriptor
        if descriptor["kind"] == "Location":
            located = self._annotated(file, descriptor)
            resting = self._followed(file, document, located)
            if not self._finds_its_targets(file, descriptor):
                given = {**descriptor, "spec": resting["spec"]}
        self._current.differs = self._current.differs or given != document.value
        self._current.descriptors.append(given)
        self.reading.add(entity_of(given, self.settings.provider, document.place(())))

    def _finds_its_targets(self, file: File, descriptor: Dict[str, Any]) -> bool:
        """The catalogue finds the Location's targets on the shelf: they are relative, no patterns, and of the type of its own place."""
        own_type = self.location_of(file.path).partition(":")[0]
        plain = not any("://" in target or target.startswith("/") or glob.has_magic(target) for target in targets_of(descriptor))
        return plain and descriptor["spec"].get("type", own_type) == own_type


def locations(provider: str, names: Sequence[str]) -> Reading:
    """The Locations that name texts, as what a push gives."""
    reading = Reading()
    for kind in sorted({name.partition(":")[0] for name in names}):
        targets = sorted(name.partition(":")[2] for name in names if name.partition(":")[0] == kind)
        for start in range(0, len(targets), MOST_TARGETS):
            number = start // MOST_TARGETS + 1
            descriptor = {
                "apiVersion": "backstage.io/v1alpha1", "kind": "Location",
                "metadata": {"name": f"{provider[:50]}-{kind}-{number}"},
                "spec": {"type": kind, "targets": targets[start:start + MOST_TARGETS], "presence": "optional"},
            }
            reading.add(entity_of(descriptor, provider, Place("the shelf's Location")))
    return reading


def push_to_shelf(server: Server, reader: ShelfReader, options: Options) -> int:
    """Puts the texts, gives their Locations, and takes away the texts that no file has any more where that was asked."""
    prune = options.prune and reader.reading.unknown is None
    earlier = _earlier(server, options.provider)
    gone = earlier - set(reader.texts)
    _show(reader.texts, gone if prune else set())
    if not options.dry_run:
        server.close()
        if not confirmed("Put these texts?", options.yes):
            say("Nothing was changed.")
            return REFUSED
        _put(server, reader.texts)
    named = set(reader.texts) | (set() if prune else gone)
    status = Push(server, locations(options.provider, sorted(named)), replace(options, yes=True, prune=True)).run()
    if prune and not options.dry_run:
        for name in sorted(gone):
            server.drop_text(name)
    return status if reader.reading.is_whole else REFUSED


def _earlier(server: Server, provider: str) -> Set[str]:
    """The texts that an earlier push named."""
    names: Set[str] = set()
    for document in server.documents([("filter", f"kind=location,metadata.annotations.{PROVIDER}={provider}")]):
        if document["metadata"]["annotations"][PROVIDER] == provider and MANAGED_BY not in document["metadata"]["annotations"]:
            names.update(f"{document['spec']['type']}:{target}" for target in document["spec"].get("targets", ()))
    return names


def _show(texts: Dict[str, _Text], gone: Set[str]) -> None:
    for name, text in sorted(texts.items()):
        print(f"  put {name}{'' if text.is_kept else '  as JSON'}")
    for name in sorted(gone):
        print(f"  drop {name}")
    print(f"{counted(len(texts), 'text')} to put, {len(gone):,} to drop.", flush=True)


def _put(server: Server, texts: Dict[str, _Text]) -> None:
    with Progress("putting texts", len(texts)) as progress:
        for done, (name, text) in enumerate(sorted(texts.items()), 1):
            server.put_text(name, text.body())
            progress.at(done)
