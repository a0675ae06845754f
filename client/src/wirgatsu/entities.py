"""Entities on their way into the catalogue, and documents on their way out of it."""

from __future__ import annotations

import copy
import json
import re
from dataclasses import dataclass
from typing import Any, Dict, List, Optional

from .names import Reference
from .places import Place

MANAGED_BY = "backstage.io/managed-by-location"
ORIGIN = "backstage.io/managed-by-origin-location"
SOURCE = "backstage.io/source-location"
EDIT = "backstage.io/edit-url"
ORPHAN = "backstage.io/orphan"
# Which provider of this client gave the entity. By it a later push knows what is its own.
PROVIDER = "wirgatsu/provider"

_COMPACT = json.JSONEncoder(ensure_ascii=False, sort_keys=True, separators=(",", ":"))


@dataclass(frozen=True)
class Entity:
    """A descriptor that the catalogue takes, as compact JSON with its keys in order, and where it came from."""

    reference: str
    body: bytes
    place: Place


def compact(value: Any) -> bytes:
    """Compact JSON with keys in order, by which descriptors are compared and sent."""
    return _COMPACT.encode(value).encode("utf-8")


def annotations_of(descriptor: Dict[str, Any]) -> Dict[str, Any]:
    """The annotations of a descriptor; nothing where it has none."""
    annotations = descriptor.get("metadata", {}).get("annotations")
    return annotations if isinstance(annotations, dict) else {}


def reference_of(descriptor: Dict[str, Any]) -> Reference:
    """The reference of a descriptor of which the rules hold, or of a document."""
    metadata = descriptor["metadata"]
    return Reference.of(descriptor["kind"], metadata.get("namespace", "default"), metadata["name"])


def entity_of(descriptor: Dict[str, Any], provider: str, place: Place) -> Entity:
    """The descriptor as the provider gives it: with its namespace and the provider's mark."""
    metadata = dict(descriptor["metadata"])
    metadata.setdefault("namespace", "default")
    metadata["annotations"] = {**annotations_of(descriptor), PROVIDER: provider}
    given = {**descriptor, "metadata": metadata}
    return Entity(str(reference_of(given)), compact(given), place)


def without_made(document: Dict[str, Any]) -> Dict[str, Any]:
    """The descriptor that a document was made from: without what a catalogue adds."""
    descriptor = {key: value for key, value in document.items() if key not in ("relations", "status")}
    metadata = descriptor.get("metadata")
    if isinstance(metadata, dict):
        metadata = {key: value for key, value in metadata.items() if key not in ("uid", "etag")}
        descriptor["metadata"] = _without_annotations(metadata, (ORPHAN,))
    return descriptor


def without_mark(descriptor: Dict[str, Any]) -> Dict[str, Any]:
    """The descriptor without the mark of the provider that gave it."""
    return {**descriptor, "metadata": _without_annotations(descriptor["metadata"], (PROVIDER,))}


def _without_annotations(metadata: Dict[str, Any], keys: Any) -> Dict[str, Any]:
    annotations = metadata.get("annotations")
    if not isinstance(annotations, dict) or not any(key in annotations for key in keys):
        return metadata
    kept = {key: value for key, value in annotations.items() if key not in keys}
    rest = {key: value for key, value in metadata.items() if key != "annotations"}
    return {**rest, "annotations": kept} if kept else rest


def resting_location(descriptor: Dict[str, Any]) -> Dict[str, Any]:
    """A Location whose targets were followed already: the catalogue needn't find them on its shelf.

    Where a target is relative the Location loses its type, so that the type of the place that it stands at counts.
    """
    resting = copy.deepcopy(descriptor)
    spec = resting["spec"]
    spec["presence"] = "optional"
    if MANAGED_BY in annotations_of(descriptor) and not all("://" in target for target in targets_of(descriptor)):
        spec.pop("type", None)
    if "target" in spec:
        spec["target"] = _without_spaces(spec["target"])
    if "targets" in spec:
        spec["targets"] = [_without_spaces(target) for target in spec["targets"]]
    return resting


def _without_spaces(target: str) -> str:
    """The target with spaces and control characters as in an address, since no name of the shelf may have them."""
    return re.sub(r"[\x00-\x20\x7f]", lambda found: f"%{ord(found[0]):02X}", target)


def targets_of(descriptor: Dict[str, Any]) -> List[str]:
    """The targets of a Location of which the rules hold, `target` first."""
    spec = descriptor["spec"]
    return ([spec["target"]] if "target" in spec else []) + list(spec.get("targets", ()))


def changed_paths(before: Any, after: Any, path: Optional[str] = None) -> List[str]:
    """The dotted paths at which two values differ, as deep as both are maps."""
    if isinstance(before, dict) and isinstance(after, dict):
        keys = sorted(set(before) | set(after))
        return [found for key in keys for found in changed_paths(
            before.get(key), after.get(key), f"{path}.{key}" if path else key)]
    return [] if before == after else [path or ""]
