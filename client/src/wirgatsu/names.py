"""The forms of names, and references to entities."""

from __future__ import annotations

import re
from dataclasses import dataclass
from functools import lru_cache
from typing import Optional

_KIND = re.compile(r"[A-Za-z][A-Za-z0-9]{0,62}")
_NAME = re.compile(r"[A-Za-z0-9](?:[A-Za-z0-9._-]{0,61}[A-Za-z0-9])?")
_NAMESPACE = re.compile(r"[A-Za-z0-9](?:[A-Za-z0-9-]{0,61}[A-Za-z0-9])?")
_TAG = re.compile(r"[a-z0-9:+#]+(?:-[a-z0-9:+#]+)*")
_LOCATION_TYPE = re.compile(r"[A-Za-z0-9_-]{1,63}")

_REFERENCE = re.compile(r"(?:([^:/]+):)?(?:([^:/]+)/)?([^:/]+)")

NAME_FORM = "1 to 63 letters, digits, '-', '_' and '.', the first and the last a letter or digit"
NAMESPACE_FORM = "1 to 63 letters, digits and '-', the first and the last a letter or digit"
KEY_FORM = "a name, or a subdomain, '/' and a name"
TAG_FORM = "1 to 63 of a to z, 0 to 9, ':', '+' and '#', in pieces joined by single '-'"
LOCATION_TYPE_FORM = "1 to 63 letters, digits, '-' and '_'"


def is_kind(text: str) -> bool:
    """The text has the form of a kind."""
    return _KIND.fullmatch(text) is not None


def is_name(text: str) -> bool:
    """The text has the form of a name, which is also that of a provider's name."""
    return _NAME.fullmatch(text) is not None


def is_namespace(text: str) -> bool:
    """The text has the form of a namespace."""
    return _NAMESPACE.fullmatch(text) is not None


def is_key(text: str) -> bool:
    """The text may be the key of a label or an annotation."""
    prefix, slash, name = text.rpartition("/")
    if slash and not (len(prefix) <= 253 and all(map(is_namespace, prefix.split(".")))):
        return False
    return is_name(name)


def is_tag(text: str) -> bool:
    """The text has the form of a tag."""
    return len(text) <= 63 and _TAG.fullmatch(text) is not None


def is_location_type(text: str) -> bool:
    """The text has the form of a Location's type."""
    return _LOCATION_TYPE.fullmatch(text) is not None


def is_shelf_name(text: str) -> bool:
    """The text may be the name of a text on the shelf."""
    kind, colon, rest = text.partition(":")
    clean = all(byte > 0x20 and byte != 0x7F for byte in text.encode("utf-8", "surrogatepass"))
    return bool(colon and rest) and is_location_type(kind) and clean and len(text.encode("utf-8", "surrogatepass")) <= 2048


class ReferenceFault(ValueError):
    """A text that names no entity. Its text says why."""


@dataclass(frozen=True, order=True)
class Reference:
    """The kind, namespace and name of an entity, in lower case."""

    kind: str
    namespace: str
    name: str

    def __str__(self) -> str:
        return f"{self.kind}:{self.namespace}/{self.name}"

    @classmethod
    @lru_cache(maxsize=4096)
    def of(cls, kind: str, namespace: str, name: str) -> Reference:
        """The reference of these parts, if each has its form."""
        if not is_kind(kind):
            raise ReferenceFault(f"'{kind}' is no kind")
        if not is_namespace(namespace):
            raise ReferenceFault(f"'{namespace}' is no namespace")
        if not is_name(name):
            raise ReferenceFault(f"'{name}' is no name")
        return cls(kind.lower(), namespace.lower(), name.lower())

    @classmethod
    def parse(cls, text: str, kind: Optional[str] = None, namespace: str = "default") -> Reference:
        """Reads `[kind:][namespace/]name`, with these where the text has none."""
        match = _REFERENCE.fullmatch(text)
        if match is None:
            raise ReferenceFault("it must be written [kind:][namespace/]name")
        if not (match[1] or kind):
            raise ReferenceFault(f"it must name a kind, as in component:{text}")
        return cls.of(match[1] or kind or "", match[2] or namespace, match[3])
