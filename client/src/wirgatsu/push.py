"""Gives a provider's entities to the catalogue: plans, asks, and applies as few mutations as the server's limit allows."""

from __future__ import annotations

import os
import re
from dataclasses import dataclass
from pathlib import Path
from typing import Any, Dict, Iterator, List, Sequence

from .checkout import repository_parts
from .entities import Entity
from .errors import OK, REFUSED, ClientError, RefusedError
from .finding import Finder
from .places import Place, Problem
from .plan import MOST_ROWS, Plan, Wanted, plan_of
from .reading import Reading
from .server import Server
from .terminal import Progress, confirmed, counted, print_problems, say

BODY_LIMIT = 4_194_304
MOST_ITEMS = 100_000
ROUNDS = 5


@dataclass(frozen=True)
class Options:
    """How a push is made."""

    provider: str
    prune: bool = False
    dry_run: bool = False
    yes: bool = False
    wait: bool = True
    verbose: bool = False
    body_limit: int = BODY_LIMIT


_LOST = "Another push of this provider came between, so the plan is made anew."
_UNCERTAIN = "The connection broke off, so what the catalogue has is compared again."


class LostError(Exception):
    """Another push came between, or may have come between; the plan must be made anew. Its text says which."""


@dataclass(frozen=True)
class Part:
    """One mutation: `full` or `delta`, the entities that it gives and the references that it takes away."""

    form: str
    given: Sequence[Entity]
    removed: Sequence[str] = ()

    def body(self, serial: int) -> bytes:
        """The body of the request, with the keys in order."""
        items = b",".join(b'{"entity":' + entity.body + b"}" for entity in self.given)
        if self.form == "full":
            return b'{"entities":[%s],"serial":%d}' % (items, serial)
        removed = ",".join(f'"{reference}"' for reference in self.removed).encode()
        return b'{"added":[%s],"removed":[%s],"serial":%d}' % (items, removed, serial)


def default_provider(paths: Sequence[str], finder: Finder) -> str:
    """The provider of a push that names none: the repository, or else the folder."""
    first = Path(os.path.realpath(paths[0]))
    folder = first if first.is_dir() else first.parent
    checkout = finder.checkout(folder)
    if checkout and checkout.remote:
        text = ".".join(repository_parts(checkout.remote)[-2:])
    else:
        text = (checkout.top if checkout else folder).name
    return re.sub(r"[^A-Za-z0-9._-]+", "-", text)[:63].strip("._-") or "files"


def parts_of(plan: Plan, wanted: Wanted, whole: bool, limit: int) -> Iterator[Part]:
    """The mutations of a plan. A `full` where it is known to be all and fits, else `delta`s, of which the last one removes."""
    if whole and wanted.prune and len(wanted.entities) <= MOST_ITEMS:
        part = Part("full", list(wanted.entities.values()))
        if sum(map(_size, part.given)) + 64 <= limit:
            yield part
            return
    given = [wanted.entities[reference] for reference in plan.marked("+") + plan.marked("~")]
    removed = plan.marked("-") + plan.hidden
    yield from _deltas(given, removed, limit)


def _deltas(given: List[Entity], removed: List[str], limit: int) -> Iterator[Part]:
    pieces = list(_pieces(given, limit - 64))
    takes = list(_reference_pieces(removed, limit - 64))
    last_fits = pieces and takes and sum(map(_size, pieces[-1])) + sum(len(one) + 3 for one in takes[0]) + 64 <= limit
    for position, piece in enumerate(pieces):
        is_last = position == len(pieces) - 1
        yield Part("delta", piece, takes.pop(0) if is_last and last_fits else ())
    for references in takes:
        yield Part("delta", (), references)


def _size(entity: Entity) -> int:
    return len(entity.body) + len(b'{"entity":},')


def _pieces(entities: List[Entity], limit: int) -> Iterator[List[Entity]]:
    piece: List[Entity] = []
    size = 0
    for entity in entities:
        if piece and (size + _size(entity) > limit or len(piece) == MOST_ITEMS):
            yield piece
            piece, size = [], 0
        piece.append(entity)
        size += _size(entity)
    if piece:
        yield piece


def _reference_pieces(references: List[str], limit: int) -> Iterator[List[str]]:
    count = max(1, limit // 200)
    for start in range(0, len(references), count):
        yield references[start:start + count]


class Push:
    """One push of what was read."""

    def __init__(self, server: Server, reading: Reading, options: Options) -> None:
        self.server, self.reading, self.options = server, reading, options
        prune = options.prune and reading.unknown is None
        self.wanted = Wanted(options.provider, self._fitting(), prune, reading.refused)

    def _fitting(self) -> Dict[str, Entity]:
        """The entities that one request can carry; the others are refused."""
        fitting = {}
        for reference, entity in self.reading.entities.items():
            if _size(entity) + 64 <= self.options.body_limit:
                fitting[reference] = entity
            else:
                self.reading.refuse(entity.place, f"{reference} is larger than a request may be", reference)
        return fitting

    def run(self) -> int:
        """Plans, asks and applies, anew where another push came between; then says what the catalogue made of it."""
        if self.options.prune and not self.wanted.prune:
            say(f"Nothing is removed, since it isn't known what {self.reading.unknown} gives.")
        for count in range(ROUNDS):
            serial = 0 if self.options.dry_run else self._serial()
            plan = plan_of(self.server, self.wanted)
            self._show(plan, count == 0)
            if plan.is_empty or self.options.dry_run:
                return self._end(plan)
            self.server.close()
            if not confirmed("Apply this?", self.options.yes):
                say("Nothing was changed.")
                return REFUSED
            try:
                self._apply(plan, serial)
                return self._end(plan)
            except LostError as lost:
                say(str(lost))
        raise ClientError(f"other pushes of the provider {self.options.provider} come between again and again; try later")

    def _show(self, plan: Plan, first: bool) -> None:
        if plan.is_empty and not first:
            print("The catalogue has all of it now.")
            return
        print(f"provider {self.options.provider} at {self.server.address}")
        print(plan.shown(len(plan.changes) if self.options.verbose else MOST_ROWS), flush=True)

    def _serial(self) -> int:
        """The last serial, read before the documents, so that a push that comes between is seen by its serial."""
        serial = self.server.last_serial(self.options.provider)
        self.server.settle()
        return serial

    def _apply(self, plan: Plan, serial: int) -> None:
        parts = list(parts_of(plan, self.wanted, self.reading.is_whole, self.options.body_limit))
        uncertain = False
        with Progress("giving", sum(len(part.given) for part in parts)) as progress:
            done = 0
            for number, part in enumerate(parts, serial + 1):
                uncertain = self._give(part, number) or uncertain
                done += len(part.given)
                progress.at(done)
        if uncertain:
            raise LostError(_UNCERTAIN)

    def _give(self, part: Part, serial: int) -> bool:
        """Gives one part; whether it is uncertain that it acted, which it is where it came a second time."""
        try:
            again, resent = self.server.mutate(self.options.provider, part.form, part.body(serial))
        except RefusedError as refused:
            if refused.code == 409:
                raise LostError(_LOST) from None
            raise self._explained(refused, part) from None
        if again and not resent:
            raise LostError(_LOST)
        return again

    @staticmethod
    def _explained(refused: RefusedError, part: Part) -> ClientError:
        """A refusal that names an item by its place in the request, with the item's own place."""
        words = refused.rule.split()
        position = int(words[1]) if len(words) > 1 and words[0] in ("deep", "no_ref", "duplicate") and words[1].isdigit() else None
        if position is None or position >= len(part.given):
            return refused
        entity = part.given[position]
        return ClientError(f"{entity.place}: {entity.reference} is refused by the server: {refused.rule}")

    def _end(self, plan: Plan) -> int:
        problems: List[Problem] = []
        if not self.options.dry_run and self.options.wait:
            problems = self._made_of_it(plan)
            print_problems(problems)
        if not (plan.is_empty or self.options.dry_run):
            marks = [len(plan.marked(mark)) for mark in "+~-"]
            print(f"{marks[0]:,} added, {marks[1]:,} changed, {marks[2]:,} removed.")
        refused = len(self.reading.problems) + len(problems)
        if refused:
            say(f"{counted(refused, 'problem')}; the rest is in the catalogue." if not self.options.dry_run else counted(refused, "problem") + ".")
        return REFUSED if refused else OK

    def _made_of_it(self, plan: Plan) -> List[Problem]:
        """What the catalogue refused when it processed what it was given."""
        if not plan.is_empty:
            with Progress("processing"):
                self.server.settle()
        found = [problem for failed in self.server.failed() for problem in self._failures(failed)]
        origin = f"provider:{self.options.provider}"
        for conflict in self.server.conflicts():
            if conflict["waiting"]["origin"] == origin:
                held = conflict["holder"]["origin"].partition(":")
                found.append(Problem(self._place(conflict["entityRef"]), f"{conflict['entityRef']} waits, since {held[0]} {held[2]} gave it first"))
        return found

    def _failures(self, failed: Dict[str, Any]) -> List[Problem]:
        reference = failed["entityRef"]
        if reference not in self.wanted.entities:
            return []
        errors = [item["error"] for item in failed["items"] if item["level"] == "error"]
        return [Problem(self._place(reference), f"{reference} failed: {error['name']} {error['message']}") for error in errors]

    def _place(self, reference: str) -> Place:
        entity = self.wanted.entities.get(reference)
        return entity.place if entity else Place(reference)
