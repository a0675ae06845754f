"""The core schema of YAML 1.2: which plain scalars are numbers, flags or nothing. Every other one is a text."""

from __future__ import annotations

import re
from dataclasses import dataclass
from typing import Any

_PREFIX = "tag:yaml.org,2002:"
STR, NULL, BOOL, INT, FLOAT, SEQ, MAP = (_PREFIX + name for name in ("str", "null", "bool", "int", "float", "seq", "map"))

_NULLS = frozenset(("", "~", "null", "Null", "NULL"))
_TRUE = frozenset(("true", "True", "TRUE"))
_FALSE = frozenset(("false", "False", "FALSE"))
_INT = re.compile(r"[-+]?[0-9]+|0o[0-7]+|0x[0-9a-fA-F]+")
_FLOAT = re.compile(r"[-+]?(?:\.[0-9]+|[0-9]+(?:\.[0-9]*)?)(?:[eE][-+]?[0-9]+)?|[-+]?\.(?:inf|Inf|INF)|\.(?:nan|NaN|NAN)")
# a number of so many digits is beyond 64 bits, whatever follows
_ENOUGH_DIGITS = 40
_FIRST_OF_NUMBER = frozenset("-+.0123456789")


@dataclass(frozen=True)
class Fraction:
    """A number that is no integer, as it is written."""

    text: str


def tag_of_plain(text: str) -> str:
    """The tag of a plain scalar."""
    if text[:1] in _FIRST_OF_NUMBER and text:
        if _INT.fullmatch(text):
            return INT
        return FLOAT if _FLOAT.fullmatch(text) else STR
    if text in _NULLS:
        return NULL
    return BOOL if text in _TRUE or text in _FALSE else STR


def value_of(tag: str, text: str) -> Any:
    """The value of a scalar with this tag; ValueError where the text isn't of the tag's form."""
    if tag == STR:
        return text
    if tag == NULL and text in _NULLS:
        return None
    if tag == BOOL and (text in _TRUE or text in _FALSE):
        return text in _TRUE
    if tag == INT and _INT.fullmatch(text):
        return _integer(text)
    if tag == FLOAT and (_FLOAT.fullmatch(text) or _INT.fullmatch(text)):
        return Fraction(text)
    raise ValueError(text)


def _integer(text: str) -> int:
    if text.startswith("0o"):
        return int(text[2:], 8)
    if text.startswith("0x"):
        return int(text[2:], 16)
    digits = text.lstrip("+-").lstrip("0")[:_ENOUGH_DIGITS] or "0"
    return -int(digits) if text.startswith("-") else int(digits)
