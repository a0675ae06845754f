"""`$text`, `$json` and `$yaml`: values that stand in another file."""

from __future__ import annotations

import json
from pathlib import Path
from typing import Any, Callable, List, Optional, Tuple

from .core_schema import Fraction
from .places import Breach, Path as Steps, dotted
from .yaml_reader import PLACEHOLDERS, YamlError, read_documents


class PlaceholderFault(ValueError):
    """A placeholder that can't be resolved. Its text says why."""


def placeholder_of(value: Any) -> Optional[Tuple[str, Any]]:
    """The key and the target of a placeholder, which is a map with that key alone."""
    if isinstance(value, dict) and len(value) == 1:
        key, target = next(iter(value.items()))
        if key in PLACEHOLDERS:
            return key, target
    return None


def resolved(value: Any, find: Callable[[str], Path]) -> Tuple[Any, List[Breach]]:
    """The value with each placeholder replaced; `find` gives the file that a target names, or raises PlaceholderFault."""
    found: List[Breach] = []
    return _resolved(value, (), find, found), found


def _resolved(value: Any, path: Steps, find: Callable[[str], Path], found: List[Breach]) -> Any:
    placeholder = placeholder_of(value)
    if placeholder is not None:
        try:
            return _content(placeholder[0], placeholder[1], find)
        except PlaceholderFault as fault:
            found.append(Breach(path, f"{dotted(path)}: {fault}"))
            return None
    if isinstance(value, dict):
        return {key: _resolved(member, path + (key,), find, found) for key, member in value.items()}
    if isinstance(value, list):
        return [_resolved(member, path + (position,), find, found) for position, member in enumerate(value)]
    return value


def _content(key: str, target: Any, find: Callable[[str], Path]) -> Any:
    if not isinstance(target, str) or not target:
        raise PlaceholderFault(f"{key} must name a file")
    file = find(target)
    try:
        data = file.read_bytes()
    except OSError as error:
        raise PlaceholderFault(f"{key} names {target}, which can't be read: {error.strerror}") from None
    if key == "$yaml":
        return _yaml(target, data)
    try:
        text = data.decode("utf-8-sig")
        return text if key == "$text" else json.loads(text, parse_float=Fraction, parse_constant=Fraction)
    except UnicodeDecodeError:
        raise PlaceholderFault(f"{key} names {target}, which isn't UTF-8") from None
    except (ValueError, RecursionError) as error:
        raise PlaceholderFault(f"{key} names {target}, which is no JSON: {error}") from None


def _yaml(target: str, data: bytes) -> Any:
    try:
        documents = list(read_documents(target, data))
    except YamlError as error:
        raise PlaceholderFault(f"$yaml names a file that can't be read, {error.place}: {error.message}") from None
    if len(documents) != 1:
        raise PlaceholderFault(f"$yaml names {target}, which has {len(documents)} documents, not one")
    if documents[0].faults:
        place, message = documents[0].faults[0]
        raise PlaceholderFault(f"$yaml names a file that can't be read, {place}: {message}")
    return documents[0].value
