"""Reads descriptors from files: each is brought into the form that the catalogue takes, or refused with its line."""

from __future__ import annotations

from collections import deque
from dataclasses import dataclass, field
from pathlib import Path
from typing import Any, Callable, Deque, Dict, FrozenSet, Iterable, List, Optional, Sequence, Set, Tuple
from urllib.parse import quote

from . import rules
from .entities import EDIT, MANAGED_BY, ORIGIN, SOURCE, Entity, annotations_of, entity_of, reference_of, resting_location, targets_of
from .finding import USUAL_NAMES, File, Finder, TargetFault, shown_path
from .names import Reference, ReferenceFault
from .placeholders import PlaceholderFault, resolved
from .places import Breach, Place, Problem, dotted
from .yaml_reader import Document, YamlError, read_documents

_FOLLOWED_TYPES = (None, "file", "url")


@dataclass(frozen=True)
class Settings:
    """How files are read."""

    provider: str = "files"
    patterns: Sequence[str] = USUAL_NAMES
    excluded: Sequence[str] = ()
    numbers_as_text: bool = False
    as_is: bool = False
    skipped_kinds: FrozenSet[str] = frozenset()


@dataclass
class Reading:
    """What was read. `refused` are references that couldn't be brought in, `unknown` is the first place where it isn't known which."""

    entities: Dict[str, Entity] = field(default_factory=dict)
    problems: List[Problem] = field(default_factory=list)
    warnings: List[Problem] = field(default_factory=list)
    files: int = 0
    refused: Set[str] = field(default_factory=set)
    unknown: Optional[Place] = None

    @property
    def is_whole(self) -> bool:
        """Nothing was refused."""
        return not self.problems

    def refuse(self, place: Place, message: str, reference: Optional[str]) -> None:
        """Notes what can't be brought in; without a reference it isn't known which entities that are."""
        self.problems.append(Problem(place, message, reference))
        if reference:
            self.refused.add(reference)
        else:
            self.unknown = self.unknown or place

    def add(self, entity: Entity) -> None:
        """Takes the entity, if none has its reference."""
        first = self.entities.get(entity.reference)
        if first is not None:
            self.problems.append(Problem(entity.place, f"{entity.reference} stands already at {first.place}", entity.reference))
        else:
            self.entities[entity.reference] = entity


def probable_reference(descriptor: Any) -> Optional[str]:
    """The reference of a descriptor that may break rules, if it names an entity at all."""
    try:
        return str(reference_of(descriptor))
    except (ReferenceFault, KeyError, TypeError, AttributeError):
        return None


def profile_breaches(descriptor: Any) -> List[Breach]:
    """All that keeps a descriptor out of the catalogue."""
    return rules.unholdable(descriptor) or rules.breaches(descriptor)


def other_kind(descriptor: Any) -> Optional[str]:
    """The kind of a descriptor, where it is none of the catalogue's."""
    kind = descriptor.get("kind") if isinstance(descriptor, dict) else None
    return kind if isinstance(kind, str) and kind and kind not in rules.KINDS else None


class FileReader:
    """Reads files, and those that their Locations name."""

    def __init__(self, settings: Settings, finder: Finder) -> None:
        self.settings = settings
        self.finder = finder
        self.reading = Reading()
        self._queue: Deque[File] = deque()
        self._seen: Set[Path] = set()
        self._last: Tuple[Optional[Path], Dict[str, str]] = (None, {})

    def read(self, files: Iterable[File], step: Callable[[int], None] = lambda done: None) -> Reading:
        """Reads the files; `step` is told after each how many were read."""
        for file in files:
            self._enqueue(file)
        while self._queue:
            self._read_file(self._queue.popleft())
            self.reading.files += 1
            step(self.reading.files)
        return self.reading

    def _enqueue(self, file: File) -> None:
        if file.path not in self._seen:
            self._seen.add(file.path)
            self._queue.append(file)

    def _read_file(self, file: File) -> None:
        try:
            for document in read_documents(file.shown, self._data(file)):
                self._take(file, document)
        except OSError as error:
            self.reading.refuse(Place(file.shown), f"the file can't be read: {error.strerror}", None)
        except YamlError as error:
            self.reading.refuse(error.place, error.message, None)

    def _data(self, file: File) -> bytes:
        return file.path.read_bytes()

    def location_of(self, path: Path) -> str:
        """The location of a file: its page where the checkout has one, else its path."""
        return self._whereabouts(path)[MANAGED_BY]

    def _whereabouts(self, path: Path) -> Dict[str, str]:
        """The annotations that say where a file is; those of the last file are remembered."""
        if self._last[0] != path:
            checkout = self.finder.checkout(path.parent)
            page = checkout.file_address(path) if checkout else None
            found = {MANAGED_BY: f"url:{page}" if page else f"file:{quote(path.as_posix())}"}
            folder, edit = (checkout.folder_address(path), checkout.edit_address(path)) if checkout else (None, None)
            found.update({SOURCE: f"url:{folder}"} if folder else {})
            found.update({EDIT: edit} if edit else {})
            self._last = (path, found)
        return self._last[1]

    def _take(self, file: File, document: Document) -> None:
        self.reading.warnings += [Problem(place, message) for place, message in document.warnings]
        if document.value is None and not document.faults:
            return
        descriptor, breaches = self._descriptor(file, document)
        if self._is_skipped(document, descriptor):
            return
        reference = probable_reference(descriptor)
        for place, message in document.faults:
            self.reading.refuse(place, message, reference)
        for breach in breaches:
            self.reading.refuse(document.place(breach.path), breach.message, reference)
        if not (breaches or document.faults):
            self._bring_in(file, document, descriptor)

    def _descriptor(self, file: File, document: Document) -> Tuple[Any, List[Breach]]:
        descriptor: Any = document.value
        breaches: List[Breach] = []
        if document.has_placeholders:
            descriptor, breaches = resolved(document.value, lambda target: self._placeholder_file(file, target))
        if self.settings.numbers_as_text:
            descriptor = rules.numbers_as_texts(descriptor)
        return descriptor, breaches or ([] if document.faults else profile_breaches(descriptor))

    def _placeholder_file(self, file: File, target: str) -> Path:
        try:
            return self.finder.named(file, target)
        except TargetFault as fault:
            raise PlaceholderFault(str(fault)) from None

    def _is_skipped(self, document: Document, descriptor: Any) -> bool:
        """A descriptor of a kind that the catalogue hasn't is named and left out, or skipped where that was asked."""
        kind = other_kind(descriptor)
        if kind is None:
            return False
        if kind not in self.settings.skipped_kinds:
            name = descriptor.get("metadata", {}).get("name") if isinstance(descriptor.get("metadata"), dict) else None
            message = f"{kind} '{name}' is left out: the catalogue has no kind {kind}"
            self.reading.refuse(document.place(("kind",)), message, probable_reference(descriptor))
        return True

    def _bring_in(self, file: File, document: Document, descriptor: Dict[str, Any]) -> None:
        if not self.settings.as_is:
            descriptor = self._annotated(file, descriptor)
            if descriptor["kind"] == "Location":
                descriptor = self._followed(file, document, descriptor)
        self.reading.add(entity_of(descriptor, self.settings.provider, document.place(())))

    def _annotated(self, file: File, descriptor: Dict[str, Any]) -> Dict[str, Any]:
        """The descriptor with where it stands; one that says so itself is left as it is."""
        own = annotations_of(descriptor)
        if MANAGED_BY in own:
            return descriptor
        where = self._whereabouts(file.path)
        made = {**where, ORIGIN: file.origin or where[MANAGED_BY], **own}
        return {**descriptor, "metadata": {**descriptor["metadata"], "annotations": made}}

    def _followed(self, file: File, document: Document, descriptor: Dict[str, Any]) -> Dict[str, Any]:
        """Reads what a Location names, and gives the Location as one of which nothing is left to read."""
        targets = targets_of(descriptor)
        if descriptor["spec"].get("type") in _FOLLOWED_TYPES:
            for position, target in enumerate(targets):
                self._follow(file, document, descriptor, position, target)
        else:
            message = f"the targets of a Location of the type {descriptor['spec']['type']} aren't followed"
            self.reading.warnings.append(Problem(document.place(("spec", "type")), message))
        return resting_location(descriptor)

    def _follow(self, file: File, document: Document, descriptor: Dict[str, Any], position: int, target: str) -> None:
        offset = 1 if "target" in descriptor["spec"] else 0
        path = ("spec", "targets", position - offset) if position >= offset else ("spec", "target")
        origin = annotations_of(descriptor).get(ORIGIN) or self.location_of(file.path)
        try:
            for match in self.finder.matching(file, target):
                self._enqueue(File(match, shown_path(match), file.bound, origin))
        except TargetFault as fault:
            if descriptor["spec"].get("presence") != "optional":
                self.reading.refuse(document.place(path), f"{dotted(path)} {fault}", None)
