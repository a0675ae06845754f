"""Which texts the catalogue reads itself: block YAML as its reference describes it. In doubt a text is none of these."""

from __future__ import annotations

import re
from typing import Any, List

import yaml

from .core_schema import FLOAT, INT, tag_of_plain
from .yaml_reader import _Loader

_DECIMAL = re.compile(r"-?[0-9]{1,18}")
_ESCAPES_OF_JSON = re.compile(r'(?:[^\\]|\\(?:["\\/bfnrt]|u[0-9a-fA-F]{4}))*')
_BEYOND_IN_A_LINE = re.compile(r"%|\.\.\.|\s*\?(?:\s|$)|.*,\s*\](?:\s|$)")


def is_block_yaml(text: str) -> bool:
    """The catalogue reads the text as YAML, and reads the same values as this client."""
    lines = text.split("\n")
    if any(character in text for character in "\t\r\ufeff\x85\u2028\u2029") or any(map(_BEYOND_IN_A_LINE.match, lines)):
        return False
    try:
        events = list(yaml.parse(text, Loader=_Loader))
    except (yaml.YAMLError, RecursionError):
        return False
    return any(isinstance(event, yaml.ScalarEvent) for event in events) and _are_simple(events, lines)


def _are_simple(events: List[Any], lines: List[str]) -> bool:
    in_brackets = False
    for event, following in zip(events, events[1:]):
        if isinstance(event, yaml.AliasEvent) or getattr(event, "anchor", None) or getattr(event, "tag", None):
            return False
        if isinstance(event, yaml.DocumentStartEvent) and (event.version or event.tags):
            return False
        if isinstance(event, yaml.ScalarEvent) and not _is_simple_scalar(event, lines, in_brackets):
            return False
        if isinstance(event, yaml.CollectionStartEvent) and event.flow_style:
            if in_brackets or not _is_simple_flow(event, following, lines):
                return False
            in_brackets = isinstance(event, yaml.SequenceStartEvent) and not isinstance(following, yaml.SequenceEndEvent)
        elif in_brackets and isinstance(event, yaml.CollectionEndEvent):
            in_brackets = False
    return True


def _is_simple_flow(event: Any, following: Any, lines: List[str]) -> bool:
    """An empty map or list, or a list on one line."""
    line = lines[event.start_mark.line]
    if isinstance(event, yaml.MappingStartEvent):
        return line[event.start_mark.column:].startswith("{}")
    closing = line.find("]", event.start_mark.column)
    return closing >= 0 and (not isinstance(following, yaml.SequenceEndEvent) or line[event.start_mark.column:].startswith("[]"))


def _is_simple_scalar(event: Any, lines: List[str], in_brackets: bool) -> bool:
    start, end = event.start_mark, event.end_mark
    rest = lines[start.line][start.column:] if start.line < len(lines) else ""
    if event.style == "|":
        return not in_brackets and rest.strip() in ("|", "|-", "|+")
    if event.style == ">" or start.line != end.line:
        return False
    written = lines[start.line][start.column:end.column]
    if event.style == '"':
        return _ESCAPES_OF_JSON.fullmatch(written) is not None
    return event.style == "'" or _is_simple_plain(event.value, in_brackets)


def _is_simple_plain(text: str, in_brackets: bool) -> bool:
    tag = tag_of_plain(text)
    if tag == INT:
        return _DECIMAL.fullmatch(text) is not None and text != "-0"
    return tag != FLOAT and not (in_brackets and text == "") and not text.startswith("<<")
