"""Filters as the server reads them, for what comes by `/changes`."""

from __future__ import annotations

from typing import Any, Dict, Iterator, List, Sequence, Set, Tuple

Conditions = Dict[str, Set[Any]]


def conditions_of(text: str) -> Conditions:
    """The values that a filter allows for each key; None among them allows each value."""
    allowed: Conditions = {}
    for piece in text.split(","):
        key, equals, value = piece.strip(" ").partition("=")
        if key or equals:
            allowed.setdefault(_folded(key), set()).add(_folded(value) if equals else None)
    return allowed


def matches(document: Dict[str, Any], filters: Sequence[Conditions]) -> bool:
    """Whether one of the filters holds for a document; without filters each document matches."""
    if not filters:
        return True
    rows: Dict[str, Set[str]] = {}
    for key, value in search_rows(document):
        rows.setdefault(_folded(key), set()).add(_folded(value))
    return any(_holds(conditions, rows) for conditions in filters)


def _holds(conditions: Conditions, rows: Dict[str, Set[str]]) -> bool:
    return all(key in rows and (None in allowed or allowed & rows[key]) for key, allowed in conditions.items())


def search_rows(document: Dict[str, Any]) -> List[Tuple[str, str]]:
    """What a document says, as pairs of a dotted path and a value."""
    said = {key: value for key, value in document.items() if key not in ("relations", "status")}
    related = [(f"relations.{one['type']}", one["targetRef"]) for one in document.get("relations", ())]
    return list(_rows("", said)) + related


def _rows(path: str, value: Any) -> Iterator[Tuple[str, str]]:
    if isinstance(value, dict):
        for key, member in value.items():
            yield from _rows(f"{path}.{key}" if path else key, member)
    elif isinstance(value, list):
        for member in value:
            yield from _rows(path, member)
            if isinstance(member, str):
                yield f"{path}.{member}", "true"
    elif isinstance(value, bool):
        yield path, "true" if value else "false"
    elif value is not None:
        yield path, str(value)


def _folded(text: str) -> str:
    """Lower case of ASCII alone."""
    return "".join(chr(ord(character) + 32) if "A" <= character <= "Z" else character for character in text)
