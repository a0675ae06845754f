"""Reads the entities of a running Backstage."""

from __future__ import annotations

import json
import re
from collections import Counter
from typing import Any, Callable, Dict, FrozenSet, Iterator, Optional
from urllib.parse import urlsplit

from . import rules
from .core_schema import Fraction
from .entities import entity_of, resting_location, without_made, without_mark
from .errors import ClientError, RefusedError
from .places import Place
from .reading import Reading, other_kind, probable_reference, profile_breaches
from .server import Connection, Reply

PAGE = 500
API = "/api/catalog"


class Backstage:
    """The catalogue of a running Backstage, by its HTTP API."""

    def __init__(self, address: str, token: Optional[str] = None) -> None:
        whole = address.rstrip("/")
        self.connection = Connection(whole if whole.endswith(API) else whole + API, token)
        self.address = self.connection.address

    def __enter__(self) -> Backstage:
        return self

    def __exit__(self, *fault: object) -> None:
        self.connection.close()

    def entities(self, count: Callable[[int], None] = lambda total: None) -> Iterator[Dict[str, Any]]:
        """All entities, page by page; `count` is told how many there are."""
        query = [("limit", str(PAGE))]
        while True:
            page = self._page(self.connection.ask("GET", "/entities/by-query", query))
            count(int(page.get("totalItems", 0)))
            yield from page["items"]
            following = (page.get("pageInfo") or {}).get("nextCursor")
            if not following:
                return
            query = [("limit", str(PAGE)), ("cursor", following)]

    def _page(self, reply: Reply) -> Dict[str, Any]:
        if reply.code in (401, 403):
            raise RefusedError(f"{self.address} wants a token; name the variable that has it by --token-env ({reply.code})", reply.code, "")
        if reply.code != 200:
            raise RefusedError(f"{self.address} answers {reply.code} to /entities/by-query", reply.code, "")
        try:
            page = json.loads(reply.body, parse_float=Fraction, parse_constant=Fraction)
        except ValueError:
            page = None
        if not isinstance(page, dict) or not isinstance(page.get("items"), list):
            raise ClientError(f"{self.address} doesn't answer as Backstage's catalogue does")
        return page


def default_provider(address: str) -> str:
    """The provider of an import that names none."""
    host = urlsplit(address if "://" in address else f"http://{address}").hostname or "backstage"
    return ("backstage-" + re.sub(r"[^A-Za-z0-9._-]+", "-", host))[:63].strip("._-")


def read_backstage(
        backstage: Backstage, provider: str, numbers_as_text: bool, skipped_kinds: FrozenSet[str],
        step: Callable[[int, int], None] = lambda done, total: None) -> Reading:
    """Reads all entities; `step` is told how many were read of how many."""
    reading, total, done = Reading(), 0, 0

    def count(told: int) -> None:
        nonlocal total
        total = told

    for done, document in enumerate(backstage.entities(count), 1):
        _take(reading, document, provider, numbers_as_text, skipped_kinds)
        step(done, total)
    if done < total:
        reading.unknown = Place(f"{backstage.address}, which has {total:,} entities and gave {done:,},")
    return reading


def _take(reading: Reading, document: Any, provider: str, numbers_as_text: bool, skipped_kinds: FrozenSet[str]) -> None:
    if not isinstance(document, dict) or not isinstance(document.get("metadata"), dict):
        reading.refuse(Place("an entity without metadata"), "it is left out", None)
        return
    place = Place(_name(document))
    kind = other_kind(document)
    if kind is not None:
        if kind not in skipped_kinds:
            reading.refuse(place, f"it is left out: the catalogue has no kind {kind}", place.source)
        return
    descriptor = without_mark(without_made(document))
    if numbers_as_text:
        descriptor = rules.numbers_as_texts(descriptor)
    breaches = profile_breaches(descriptor)
    for breach in breaches:
        reading.refuse(place, breach.message, probable_reference(descriptor) or place.source)
    if not breaches:
        # Backstage has followed the targets of a Location already
        given = resting_location(descriptor) if descriptor["kind"] == "Location" else descriptor
        reading.add(entity_of(given, provider, place))


def _name(document: Dict[str, Any]) -> str:
    metadata = document["metadata"]
    return f"{str(document.get('kind', '?')).lower()}:{metadata.get('namespace', 'default')}/{metadata.get('name', '?')}"


def left_out_by_kind(reading: Reading) -> str:
    """How many entities of each kind were left out, in one sentence; nothing where none was."""
    sources = {problem.place.source for problem in reading.problems}
    counts = sorted(Counter(source.partition(":")[0] for source in sources).items())
    return f"Left out: {', '.join(f'{count:,} of kind {kind}' for kind, count in counts)}." if counts else ""
