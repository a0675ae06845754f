"""Writes values as YAML that readers of version 1.1 and of version 1.2 read alike."""

from __future__ import annotations

from typing import Any, Iterable, Iterator

import yaml

from .core_schema import STR, tag_of_plain

# line breaks for readers of version 1.1 alone, so they are written by escapes
_BREAKS_OF_1_1 = frozenset("\x85\u2028\u2029")
_Base: Any = yaml.CSafeDumper if yaml.__with_libyaml__ else yaml.SafeDumper


class _Dumper(_Base):  # type: ignore[misc]
    """Writes texts over several lines as such, and no aliases."""

    def ignore_aliases(self, data: Any) -> bool:
        return True


def _text(dumper: Any, text: str) -> Any:
    if tag_of_plain(text) != STR:
        return dumper.represent_scalar(STR, text, style="'")
    if not _BREAKS_OF_1_1.isdisjoint(text):
        return dumper.represent_scalar(STR, text, style='"')
    if "\n" in text and all(character.isprintable() or character == "\n" for character in text):
        return dumper.represent_scalar(STR, text, style="|")
    return dumper.represent_scalar(STR, text)


_Dumper.add_representer(str, _text)


def written(value: Any) -> str:
    """One document, with its keys in the order that they stand in."""
    return yaml.dump(value, Dumper=_Dumper, allow_unicode=True, sort_keys=False, width=120)


def written_documents(values: Iterable[Any]) -> Iterator[str]:
    """Documents one after the other, each behind its mark."""
    for value in values:
        yield "---\n" + written(value)


def in_usual_order(descriptor: Any) -> Any:
    """A descriptor with its fields as people write them: version, kind, metadata with the name first, spec."""
    first = [key for key in ("apiVersion", "kind", "metadata", "spec") if key in descriptor]
    ordered = {key: descriptor[key] for key in first + sorted(set(descriptor) - set(first))}
    metadata = ordered.get("metadata")
    if isinstance(metadata, dict):
        leading = [key for key in ("name", "namespace", "title", "description") if key in metadata]
        ordered["metadata"] = {key: metadata[key] for key in leading + sorted(set(metadata) - set(leading))}
    return ordered
