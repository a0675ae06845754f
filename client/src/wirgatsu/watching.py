"""Shows what changes in the catalogue, as it changes."""

from __future__ import annotations

import json
import time
from dataclasses import dataclass
from typing import Any, Dict, Iterator, List, Optional, Sequence, Tuple

from .entities import changed_paths
from .errors import OK, NoServerError, RefusedError
from .filters import Conditions, conditions_of, matches
from .server import Server
from .terminal import coloured, counted, joined, say

_WORDS = {"+": "added", "~": "changed", "-": "removed"}
_COLOURS = {"+": "green", "~": "yellow", "-": "red"}
Document = Dict[str, Any]


@dataclass(frozen=True)
class Event:
    """One entity that was added (`+`), changed (`~`) or removed (`-`)."""

    mark: str
    reference: str
    before: Optional[Document]
    after: Optional[Document]


class Copy:
    """A copy of the documents that a filter matches, which follows `/changes`."""

    def __init__(self, filters: Sequence[Conditions]) -> None:
        self.documents: Dict[str, Document] = {}
        self._filters = filters
        self._place: Optional[str] = None

    def follow(self, server: Server) -> List[Event]:
        """What changed since the last call; where the server doesn't know any more, by comparing with all that it has."""
        try:
            answer = server.changes(self._place)
        except RefusedError as refused:
            if self._place is None or refused.code not in (400, 410):
                raise
            answer = server.changes(None)
        events = list(self._apply(answer))
        self._place = answer["to"]
        return events

    def _apply(self, answer: Dict[str, Any]) -> Iterator[Event]:
        present = set()
        for change in answer["changes"]:
            present.add(change["entityRef"])
            yield from self._set(change["entityRef"], change.get("set"))
        if answer["from"] is None:
            for reference in sorted(set(self.documents) - present):
                yield from self._set(reference, None)

    def _set(self, reference: str, after: Optional[Document]) -> Iterator[Event]:
        if after is not None and not matches(after, self._filters):
            after = None
        before = self.documents.get(reference)
        if after == before:
            return
        if after is None:
            del self.documents[reference]
        else:
            self.documents[reference] = after
        yield Event("+" if before is None else "-" if after is None else "~", reference, before, after)


def watch(server: Server, filters: List[str], interval: float, count: Optional[int], output: str) -> int:
    """Follows the catalogue until it is interrupted, or until so many changes were shown."""
    copy = Copy([conditions_of(text) for text in filters])
    copy.follow(server)
    say(f"Watching {counted(len(copy.documents), 'entity', 'entities')}; Ctrl-C ends it.")
    shown, away = 0, False
    while count is None or shown < count:
        server.close()
        time.sleep(interval)
        try:
            events = copy.follow(server)
        except NoServerError as error:
            if not away:
                say(f"{error}; waiting for it.")
            away = True
            continue
        away = False
        for event in events:
            print(_line(event, output), flush=True)
            shown += 1
    return OK


def _line(event: Event, output: str) -> str:
    if output == "json":
        return json.dumps({"change": _WORDS[event.mark], "entityRef": event.reference, "entity": event.after}, ensure_ascii=False)
    note = joined(changed_paths(event.before, event.after)) if event.mark == "~" else ""
    line = f"{time.strftime('%H:%M:%S')}  {_WORDS[event.mark].ljust(7)}  {event.reference}  {note}".rstrip()
    return coloured(line, _COLOURS[event.mark])
