"""The rules of descriptors (S1 to S24), and those of references and targets, as the catalogue asks them."""

from __future__ import annotations

from dataclasses import dataclass
from typing import Any, Callable, Dict, FrozenSet, List, Optional, Tuple

from . import names
from .core_schema import Fraction
from .places import Breach, Path, dotted

API_VERSIONS = ("backstage.io/v1alpha1", "backstage.io/v1beta1")
KINDS = ("Component", "API", "Resource", "System", "Domain", "Group", "User", "Location")
MOST_LEVELS = 100
MOST_TARGETS = 1000
LEAST_NUMBER, MOST_NUMBER = -(2**63), 2**64 - 1

REQUIRED_TEXTS = {
    "Component": ("type", "lifecycle", "owner"),
    "API": ("type", "lifecycle", "owner", "definition"),
    "Resource": ("type", "owner"),
    "System": ("owner",),
    "Domain": ("owner",),
    "Group": ("type",),
}


@dataclass(frozen=True)
class ReferenceField:
    """A field of `spec` that names entities."""

    name: str
    is_list: bool
    default_kind: Optional[str]
    kinds: FrozenSet[str]


def _field(name: str, is_list: bool, default_kind: Optional[str], kinds: str) -> ReferenceField:
    return ReferenceField(name, is_list, default_kind, frozenset(kinds.split()))


REFERENCE_FIELDS = (
    _field("owner", False, "group", "Component API Resource System Domain"),
    _field("system", False, "system", "Component API Resource"),
    _field("subcomponentOf", False, "component", "Component"),
    _field("providesApis", True, "api", "Component"),
    _field("consumesApis", True, "api", "Component"),
    _field("dependsOn", True, None, "Component Resource"),
    _field("dependencyOf", True, None, "Component Resource"),
    _field("domain", False, "domain", "System"),
    _field("subdomainOf", False, "domain", "Domain"),
    _field("parent", False, "group", "Group"),
    _field("children", True, "group", "Group"),
    _field("members", True, "user", "Group"),
    _field("memberOf", True, "group", "User"),
)


@dataclass(frozen=True)
class Form:
    """What a value must be: a test, and the words that say it."""

    test: Callable[[Any], bool]
    words: str


def _text_form(test: Callable[[str], bool], words: str) -> Form:
    return Form(lambda value: isinstance(value, str) and test(value), words)


TEXT = Form(lambda value: isinstance(value, str), "must be a text")
FILLED = _text_form(bool, "must be a text that isn't empty")
MAP = Form(lambda value: isinstance(value, dict), "must be a map")
LIST = Form(lambda value: isinstance(value, list), "must be a list")
VERSION = _text_form(API_VERSIONS.__contains__, "must be backstage.io/v1alpha1 or backstage.io/v1beta1")
KIND = _text_form(KINDS.__contains__, f"must be one of {', '.join(KINDS)}")
NAME = _text_form(names.is_name, f"must be {names.NAME_FORM}")
NAMESPACE = _text_form(names.is_namespace, f"must be {names.NAMESPACE_FORM}")
LABEL = _text_form(lambda text: text == "" or names.is_name(text), f"must be empty, or {names.NAME_FORM}")
TAG = _text_form(names.is_tag, f"must be {names.TAG_FORM}")
LOCATION_TYPE = _text_form(names.is_location_type, f"must be {names.LOCATION_TYPE_FORM}")
PRESENCE = _text_form(("required", "optional").__contains__, "must be 'required' or 'optional'")


def breaches(descriptor: Any) -> List[Breach]:
    """What keeps a descriptor out of the catalogue; where it is as it must be, there is nothing."""
    if not isinstance(descriptor, dict):
        return [Breach((), "a descriptor must be a map")]
    asked = _Asked()
    asked.field((), descriptor, "apiVersion", VERSION, needed=True)
    asked.field((), descriptor, "kind", KIND, needed=True)
    asked.field((), descriptor, "metadata", MAP, needed=True)
    asked.metadata(descriptor.get("metadata"))
    asked.field((), descriptor, "spec", MAP, needed=True)
    asked.spec(descriptor.get("kind"), descriptor.get("spec"))
    return asked.found or reference_breaches(descriptor) + target_breaches(descriptor)


class _Asked:
    """Collects the breaches of the rules S2 to S24, one rule after the other."""

    def __init__(self) -> None:
        self.found: List[Breach] = []

    def note(self, path: Path, words: str) -> None:
        self.found.append(Breach(path, f"{dotted(path)} {words}"))

    def value(self, path: Path, value: Any, form: Form) -> None:
        """The value at the path has the form."""
        if not form.test(value):
            self.note(path, form.words)

    def field(self, path: Path, owner: Dict[str, Any], key: str, form: Form, needed: bool = False) -> None:
        """The field is there with its form, or absent where it needn't be there."""
        if key in owner:
            self.value(path + (key,), owner[key], form)
        elif needed:
            self.note(path + (key,), "is required")

    def members(self, path: Path, owner: Dict[str, Any], key: str, form: Form) -> None:
        """The field is absent, or a list whose members have the form."""
        self.field(path, owner, key, LIST)
        listed = owner.get(key)
        for position, member in enumerate(listed if isinstance(listed, list) else ()):
            self.value(path + (key, position), member, form)

    def keyed(self, path: Path, owner: Dict[str, Any], key: str, form: Form) -> None:
        """The field is absent, or a map with proper keys whose values have the form."""
        self.field(path, owner, key, MAP)
        held = owner.get(key)
        for name, value in held.items() if isinstance(held, dict) else ():
            if not names.is_key(name):
                self.note(path + (key, name), f"has a key that must be {names.KEY_FORM}")
            self.value(path + (key, name), value, form)

    def metadata(self, metadata: Any) -> None:
        """The rules S5 to S17."""
        if not isinstance(metadata, dict):
            return
        path = ("metadata",)
        self.field(path, metadata, "name", NAME, needed=True)
        self.field(path, metadata, "namespace", NAMESPACE)
        self.field(path, metadata, "title", TEXT)
        self.field(path, metadata, "description", TEXT)
        self.keyed(path, metadata, "labels", LABEL)
        self.keyed(path, metadata, "annotations", TEXT)
        self.members(path, metadata, "tags", TAG)
        self.members(path, metadata, "links", MAP)
        links = metadata.get("links")
        for position, link in enumerate(links if isinstance(links, list) else ()):
            if isinstance(link, dict):
                self._link(path + ("links", position), link)

    def _link(self, path: Path, link: Dict[str, Any]) -> None:
        self.field(path, link, "url", FILLED, needed=True)
        for key in ("title", "icon", "type"):
            self.field(path, link, key, TEXT)

    def spec(self, kind: Any, spec: Any) -> None:
        """The rules S19 to S24."""
        if not isinstance(spec, dict) or kind not in KINDS:
            return
        path = ("spec",)
        for key in REQUIRED_TEXTS.get(kind, ()):
            self.field(path, spec, key, FILLED, needed=True)
        if kind == "Group":
            self.field(path, spec, "children", LIST, needed="children" not in spec)
        self._references(kind, spec)
        if kind in ("Group", "User"):
            self._profile(spec)
        if kind == "Location":
            self._location(spec)

    def _references(self, kind: str, spec: Dict[str, Any]) -> None:
        for reference in REFERENCE_FIELDS:
            if kind not in reference.kinds or reference.name in REQUIRED_TEXTS.get(kind, ()):
                continue
            if not reference.is_list:
                self.field(("spec",), spec, reference.name, FILLED)
            elif reference.name != "children" or isinstance(spec.get("children"), list):
                self.members(("spec",), spec, reference.name, FILLED)

    def _profile(self, spec: Dict[str, Any]) -> None:
        self.field(("spec",), spec, "profile", MAP)
        profile = spec.get("profile")
        for key in ("displayName", "email", "picture") if isinstance(profile, dict) else ():
            self.field(("spec", "profile"), profile, key, TEXT)

    def _location(self, spec: Dict[str, Any]) -> None:
        self.field(("spec",), spec, "type", LOCATION_TYPE)
        self.field(("spec",), spec, "target", TEXT)
        self.members(("spec",), spec, "targets", TEXT)
        self.field(("spec",), spec, "presence", PRESENCE)


def reference_breaches(descriptor: Dict[str, Any]) -> List[Breach]:
    """The references of a descriptor, of which the rules hold, that name no entity."""
    found: List[Breach] = []
    namespace = descriptor["metadata"].get("namespace", "default")
    for reference in REFERENCE_FIELDS:
        if descriptor["kind"] not in reference.kinds or reference.name not in descriptor["spec"]:
            continue
        for path, text in _texts(reference, descriptor["spec"][reference.name]):
            try:
                names.Reference.parse(text, reference.default_kind, namespace)
            except names.ReferenceFault as fault:
                found.append(Breach(path, f"{dotted(path)} names no entity: {fault}"))
    return found


def _texts(reference: ReferenceField, value: Any) -> List[Tuple[Path, str]]:
    path: Path = ("spec", reference.name)
    return [(path + (position,), text) for position, text in enumerate(value)] if reference.is_list else [(path, value)]


def target_breaches(descriptor: Dict[str, Any]) -> List[Breach]:
    """The targets of a Location that are too many, or name nothing."""
    if descriptor["kind"] != "Location":
        return []
    spec = descriptor["spec"]
    targets = [(("spec", "target"), spec["target"])] if "target" in spec else []
    targets += [(("spec", "targets", position), target) for position, target in enumerate(spec.get("targets", ()))]
    found = [Breach(path, f"{dotted(path)} names nothing") for path, target in targets if not target]
    return found + ([Breach(("spec", "targets"), "spec.targets has over 1,000 targets")] if len(targets) > MOST_TARGETS else [])


def unholdable(descriptor: Any) -> List[Breach]:
    """The parts of a descriptor that the catalogue's JSON can't hold."""
    found: List[Breach] = []
    _test_part(descriptor, (), 1, found)
    return found


def _test_part(value: Any, path: Path, level: int, found: List[Breach]) -> None:
    if isinstance(value, str):
        if not _is_utf8(value):
            found.append(Breach(path, f"{dotted(path)} has half a surrogate pair"))
    elif isinstance(value, (dict, list)):
        _test_parts(value, path, level, found)
    elif isinstance(value, Fraction):
        found.append(Breach(path, f"{dotted(path)} is {value.text}, and the catalogue holds no fractions (quote it, or give --numbers-as-text)"))
    elif isinstance(value, int) and not LEAST_NUMBER <= value <= MOST_NUMBER:
        found.append(Breach(path, f"{dotted(path)} is a number beyond 64 bits"))


def _test_parts(value: Any, path: Path, level: int, found: List[Breach]) -> None:
    if level > MOST_LEVELS:
        found.append(Breach(path, "the descriptor is over 100 levels deep"))
    elif isinstance(value, list):
        for position, member in enumerate(value):
            _test_part(member, path + (position,), level + 1, found)
    else:
        for key, member in value.items():
            if not _is_utf8(key):
                found.append(Breach(path, f"{dotted(path)} has a key with half a surrogate pair"))
            _test_part(member, path + (key,), level + 1, found)


def _is_utf8(text: str) -> bool:
    if text.isascii():
        return True
    try:
        text.encode("utf-8")
    except UnicodeEncodeError:
        return False
    return True


def numbers_as_texts(value: Any) -> Any:
    """The value with each fraction as its text."""
    if isinstance(value, dict):
        return {key: numbers_as_texts(member) for key, member in value.items()}
    if isinstance(value, list):
        return [numbers_as_texts(member) for member in value]
    return value.text if isinstance(value, Fraction) else value
