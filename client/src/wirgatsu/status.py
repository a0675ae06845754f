"""What is wrong in the catalogue: failed, in conflict, orphaned."""

from __future__ import annotations

from typing import Any, Dict, List

from .errors import OK, REFUSED
from .server import Server
from .terminal import counted, table


def status(server: Server) -> int:
    """Shows each entity that isn't as its sources want it, with the reason."""
    failed, conflicts, orphans = server.failed(), server.conflicts(), server.orphans()
    rows = [row for one in failed for row in _failures(one)]
    rows += [("in conflict", one["entityRef"], _conflict(one)) for one in conflicts]
    rows += [("orphaned", reference, "nothing gives it any more") for reference in orphans]
    if rows:
        print(table(("STATE", "ENTITY", "REASON"), rows))
    print(f"{counted(len(failed), 'failed entity', 'failed entities')}, {counted(len(conflicts), 'conflict')}, {counted(len(orphans), 'orphan')}.")
    return REFUSED if rows else OK


def _failures(failed: Dict[str, Any]) -> List[tuple]:
    errors = [item for item in failed["items"] if item["level"] == "error"]
    return [("failed", failed["entityRef"], f"{item['error']['name']}: {item['message']}") for item in errors]


def _conflict(conflict: Dict[str, Any]) -> str:
    holder, waiting = conflict["holder"], conflict["waiting"]
    return f"{waiting['origin']} waits, since {holder['origin']} gave it first"
