"""Reads YAML 1.2 with the line and column of each part.

PyYAML splits a text into nodes; what a node is, is decided here, by YAML 1.2's core schema: `yes`, `no`, `on`, `off` and dates are texts,
`0o17` is fifteen, `1:30` is a text, and `<<` is a key like any other.
"""

from __future__ import annotations

from dataclasses import dataclass, field
from typing import Any, Dict, Iterator, List, Optional, Set, Tuple

import yaml
from yaml.composer import Composer
from yaml.nodes import MappingNode, Node, ScalarNode, SequenceNode
from yaml.parser import Parser
from yaml.reader import Reader, ReaderError
from yaml.resolver import BaseResolver
from yaml.scanner import Scanner

from .core_schema import MAP, SEQ, STR, tag_of_plain, value_of
from .places import Path, Place

# keys that, alone in a map, stand for what another file has
PLACEHOLDERS = frozenset(("$text", "$json", "$yaml"))
MOST_LEVELS = 127
MOST_PARTS = 1_000_000

_DEEP_INDENT = " " * 500
_OPENINGS = ("[", "{", "- ", "? ", "-\t")

# YAML 1.2 has these as characters of a text, YAML 1.1 as line breaks. They stand in for each other while PyYAML reads.
_BREAKS_OF_1_1 = {0x85: 0xF0085, 0x2028: 0xF2028, 0x2029: 0xF2029}
_BREAKS_BACK = {there: here for here, there in _BREAKS_OF_1_1.items()}


class YamlError(Exception):
    """A text that is no YAML, from the place on."""

    def __init__(self, place: Place, message: str) -> None:
        super().__init__(message)
        self.place = place
        self.message = message


class _CoreResolver(BaseResolver):
    """Gives nodes without a tag the tags of the core schema."""

    def resolve(self, kind: Any, value: Any, implicit: Any) -> str:
        if kind is ScalarNode:
            return tag_of_plain(value) if implicit[0] else STR
        return SEQ if kind is SequenceNode else MAP


class _PurePython(Reader, Scanner, Parser, Composer, _CoreResolver):
    """PyYAML's own reader, for where it stands without libyaml."""

    def __init__(self, stream: Any) -> None:
        Reader.__init__(self, stream)
        Scanner.__init__(self)
        Parser.__init__(self)
        Composer.__init__(self)
        _CoreResolver.__init__(self)


_Loader: Any = _PurePython
if yaml.__with_libyaml__:
    from yaml.cyaml import CParser

    class _WithLibyaml(CParser, _CoreResolver):
        """The reader over libyaml, which is fifteen times as fast."""

        def __init__(self, stream: Any) -> None:
            CParser.__init__(self, stream)
            _CoreResolver.__init__(self)

    _Loader = _WithLibyaml


@dataclass
class Document:
    """One document: its value, the place of each part, and the parts that have no value."""

    source: str
    value: Any
    node: Node
    faults: List[Tuple[Place, str]] = field(default_factory=list)
    warnings: List[Tuple[Place, str]] = field(default_factory=list)
    has_placeholders: bool = False

    def place(self, path: Path) -> Place:
        """Where the part stands; for one that isn't there, the key of the map or list that lacks it."""
        node, key = self.node, self.node
        for step in path:
            found = _child(node, step)
            if found is None:
                return self._place(key)
            key, node = found
        return self._place(node)

    def key_place(self, path: Path) -> Place:
        """Where the key of the part stands."""
        found = _child(_descend(self.node, path[:-1]), path[-1]) if path else None
        return self._place(found[0] if found else self.node)

    def _place(self, node: Node) -> Place:
        return _place(self.source, node.start_mark)


def _child(node: Optional[Node], step: Any) -> Optional[Tuple[Node, Node]]:
    """The key and the value at one step below a node; a list's member is its own key."""
    if isinstance(node, MappingNode):
        return next(((key, value) for key, value in node.value if getattr(key, "value", None) == step), None)
    if isinstance(node, SequenceNode) and isinstance(step, int) and step < len(node.value):
        return node.value[step], node.value[step]
    return None


def _descend(node: Optional[Node], path: Path) -> Optional[Node]:
    for step in path:
        found = _child(node, step)
        node = found[1] if found else None
    return node


def _place(source: str, mark: Any) -> Place:
    return Place(source, mark.line + 1, mark.column + 1)


def read_documents(source: str, data: bytes) -> Iterator[Document]:
    """The documents of a text, one after the other; those before the first fault of syntax are given before it is raised."""
    text, swapped = _decoded(source, data)
    try:
        if _may_be_deep(text):
            _refuse_depth(source, text)
        loader = _Loader(text)
        while loader.check_node():
            yield _document(source, loader.get_node(), swapped)
    except yaml.MarkedYAMLError as error:
        mark = error.problem_mark or error.context_mark
        raise YamlError(_place(source, mark) if mark else Place(source), _sentence(error)) from None
    except ReaderError as error:
        character = error.character if isinstance(error.character, str) else chr(error.character)
        raise YamlError(_place_of(source, text, character), f"the character U+{ord(character[0]):04X} can't stand in YAML") from None
    except RecursionError:
        raise YamlError(Place(source, 1, 1), "the text is nested too deeply") from None


def _may_be_deep(text: str) -> bool:
    """The text could be nested so deeply that composing it would end the program. Few texts could."""
    return _DEEP_INDENT in text or sum(map(text.count, _OPENINGS)) > 1000


def _refuse_depth(source: str, text: str) -> None:
    level = 0
    for event in yaml.parse(text, Loader=_Loader):
        level += isinstance(event, yaml.CollectionStartEvent) - isinstance(event, yaml.CollectionEndEvent)
        if level > 500:
            raise YamlError(_place(source, event.start_mark), "the text is nested too deeply")


def _sentence(error: yaml.MarkedYAMLError) -> str:
    said = " ".join(str(part) for part in (error.context, error.problem) if part)
    return f"this is no YAML: {said}"


def _place_of(source: str, text: str, character: str) -> Place:
    before = text[: max(text.find(character), 0)]
    return Place(source, before.count("\n") + 1, len(before) - (before.rfind("\n") + 1) + 1)


def _decoded(source: str, data: bytes) -> Tuple[str, bool]:
    """The text, and whether line breaks of YAML 1.1 alone were taken out of the way."""
    coding = "utf-16" if data[:2] in (b"\xff\xfe", b"\xfe\xff") else "utf-8-sig"
    try:
        text = data.decode(coding)
    except UnicodeDecodeError as error:
        before = data[: error.start]
        place = Place(source, before.count(b"\n") + 1, error.start - (before.rfind(b"\n") + 1) + 1)
        raise YamlError(place, "the text isn't UTF-8") from None
    if any(chr(character) in text for character in _BREAKS_OF_1_1):
        return text.translate(_BREAKS_OF_1_1), True
    return text, False


def _document(source: str, node: Node, swapped: bool) -> Document:
    builder = _Builder(source, swapped)
    value = builder.value(node, 1)
    return Document(source, value, node, builder.faults, builder.warnings, builder.has_placeholders)


class _Builder:
    """Makes the value of a node, and notes what has none."""

    def __init__(self, source: str, swapped: bool) -> None:
        self.source = source
        self.swapped = swapped
        self.faults: List[Tuple[Place, str]] = []
        self.warnings: List[Tuple[Place, str]] = []
        self.has_placeholders = False
        self._open: Set[int] = set()
        self._parts = 0

    def value(self, node: Node, level: int) -> Any:
        """The value of a node; None where it has none, which is noted as a fault."""
        self._parts += 1
        if isinstance(node, ScalarNode):
            return self._scalar(node)
        if not self._may_open(node, level):
            return None
        self._open.add(id(node))
        made = self._map(node, level) if isinstance(node, MappingNode) else self._list(node, level)
        self._open.discard(id(node))
        return made

    def _may_open(self, node: Node, level: int) -> bool:
        if id(node) in self._open:
            return self._fault(node, "an alias refers to what it stands in")
        if level > MOST_LEVELS:
            return self._fault(node, f"this is over {MOST_LEVELS} levels deep")
        if self._parts > MOST_PARTS:
            if self._parts < MOST_PARTS * 2:
                self._parts = MOST_PARTS * 2
                self._fault(node, f"with its aliases the document has over {MOST_PARTS:,} parts")
            return False
        if node.tag not in (MAP, SEQ):
            return self._fault(node, f"the tag {_short(node.tag)} is none of YAML 1.2's core schema")
        return True

    def _scalar(self, node: ScalarNode) -> Any:
        try:
            return value_of(node.tag, self._text(node))
        except ValueError:
            if tag_is_core(node.tag):
                self._fault(node, f"'{self._text(node)}' has the tag {_short(node.tag)}, and isn't of its form")
            else:
                self._fault(node, f"the tag {_short(node.tag)} is none of YAML 1.2's core schema")
            return None

    def _map(self, node: MappingNode, level: int) -> Dict[str, Any]:
        made: Dict[str, Any] = {}
        for key_node, value_node in node.value:
            if not isinstance(key_node, ScalarNode):
                self._fault(key_node, "a key must be a text")
                continue
            key = self._text(key_node)
            if key in made:
                self._fault(key_node, f"the key '{key}' stands twice in one map")
            if key == "<<" and not key_node.style:
                self.warnings.append((_place(self.source, key_node.start_mark), "'<<' is a key like any other in YAML 1.2, so nothing is merged"))
            self.has_placeholders = self.has_placeholders or key in PLACEHOLDERS
            made[key] = self.value(value_node, level + 1)
        return made

    def _list(self, node: SequenceNode, level: int) -> List[Any]:
        return [self.value(member, level + 1) for member in node.value]

    def _text(self, node: ScalarNode) -> str:
        return node.value.translate(_BREAKS_BACK) if self.swapped else node.value

    def _fault(self, node: Node, message: str) -> bool:
        self.faults.append((_place(self.source, node.start_mark), message))
        return False


def tag_is_core(tag: str) -> bool:
    """The tag is one of a scalar in the core schema."""
    return tag.startswith("tag:yaml.org,2002:") and tag.rpartition(":")[2] in ("str", "null", "bool", "int", "float")


def _short(tag: str) -> str:
    return "!!" + tag[len("tag:yaml.org,2002:"):] if tag.startswith("tag:yaml.org,2002:") else tag
