"""What a push would add, change and remove."""

from __future__ import annotations

import json
from dataclasses import dataclass, field
from typing import Any, Dict, Iterable, List, Set

from .entities import PROVIDER, Entity, changed_paths, compact, reference_of, without_made
from .server import Server
from .terminal import Progress, coloured, counted, joined

MOST_ROWS = 40
_COLOURS = {"+": "green", "~": "yellow", "-": "red"}
_ORDER = "+~-"


@dataclass(frozen=True, order=True)
class Change:
    """One entity that is added (`+`), changed (`~`) or removed (`-`)."""

    mark: str
    reference: str
    note: str = ""


@dataclass
class Plan:
    """The changes of a push; `hidden` are references of which it isn't known whether the provider has them."""

    changes: List[Change] = field(default_factory=list)
    hidden: List[str] = field(default_factory=list)
    left: List[str] = field(default_factory=list)
    unchanged: int = 0

    def marked(self, mark: str) -> List[str]:
        """The references with a mark, in order."""
        return sorted(change.reference for change in self.changes if change.mark == mark)

    @property
    def is_empty(self) -> bool:
        """There is nothing to do."""
        return not (self.changes or self.hidden)

    def summary(self) -> str:
        """The plan in a sentence."""
        counts = [len(self.marked(mark)) for mark in _ORDER]
        return f"{counts[0]:,} to add, {counts[1]:,} to change, {counts[2]:,} to remove, {self.unchanged:,} as they are."

    def shown(self, most: int = MOST_ROWS) -> str:
        """The plan as a table, with at most so many rows for each mark."""
        lines: List[str] = []
        for mark in _ORDER:
            rows = sorted(change for change in self.changes if change.mark == mark)
            width = max((len(change.reference) for change in rows[:most]), default=0)
            lines += [coloured(f"  {mark} {row.reference.ljust(width)}   {row.note}".rstrip(), _COLOURS[mark]) for row in rows[:most]]
            if len(rows) > most:
                lines.append(f"    and {len(rows) - most:,} more (--verbose shows them)")
        if self.hidden:
            lines.append(f"  - {counted(len(self.hidden), 'reference')} that failed and no file has, if the provider gave them")
        if self.left:
            lines.append(f"  left: {joined(self.left)}, which no file has any more (--prune removes them)")
        return "\n".join(lines + [self.summary()])


@dataclass(frozen=True)
class Wanted:
    """What a provider is to have, and what is to be left of what it has beside that."""

    provider: str
    entities: Dict[str, Entity]
    prune: bool
    protected: Set[str]


def plan_of(server: Server, wanted: Wanted) -> Plan:
    """Compares what the provider's documents are with what they are to be."""
    plan, present, extra = Plan(), set(), set()
    with Progress("reading what the catalogue has") as progress:
        for done, document in enumerate(_documents_of(server, wanted.provider, progress), 1):
            reference = str(reference_of(document))
            present.add(reference)
            if reference in wanted.entities:
                _compare(plan, wanted.entities[reference], document)
            else:
                extra.add(reference)
            progress.at(done)
    for reference, entity in wanted.entities.items():
        if reference not in present:
            plan.changes.append(Change("+", reference, "" if entity.place.line is None else str(entity.place)))
    _remove(plan, server, wanted, present, extra)
    return plan


def _documents_of(server: Server, provider: str, progress: Progress) -> Iterable[Dict[str, Any]]:
    def count(total: int) -> None:
        progress.total = total

    for document in server.documents([("filter", f"metadata.annotations.{PROVIDER}={provider}")], count):
        # filters fold case, and names of providers don't
        if document["metadata"]["annotations"][PROVIDER] == provider:
            yield document


def _compare(plan: Plan, entity: Entity, document: Dict[str, Any]) -> None:
    there = without_made(document)
    if compact(there) == entity.body:
        plan.unchanged += 1
    else:
        plan.changes.append(Change("~", entity.reference, joined(changed_paths(there, json.loads(entity.body)))))


def _remove(plan: Plan, server: Server, wanted: Wanted, present: Set[str], extra: Set[str]) -> None:
    origin = f"provider:{wanted.provider}"
    waiting = {found["entityRef"] for found in server.conflicts() if found["waiting"]["origin"] == origin}
    extra = (extra | waiting) - set(wanted.entities) - wanted.protected
    if not wanted.prune:
        plan.left = sorted(extra)
        return
    plan.changes += [Change("-", reference) for reference in sorted(extra)]
    failed = sorted({found["entityRef"] for found in server.failed()} - present - extra - set(wanted.entities) - wanted.protected)
    # one that has a document shows by its mark whose it is
    plan.hidden = [reference for reference, document in zip(failed, server.documents_of(failed)) if document is None]
