"""What the catalogue has, for people and for scripts: one entity, lists, trees, owners."""

from __future__ import annotations

import json
from typing import Any, Dict, Iterable, Iterator, List, Optional, Set, Tuple

from .entities import reference_of
from .errors import OK, ClientError, WordsError
from .names import Reference, ReferenceFault
from .server import Pairs, Server
from .terminal import coloured, counted, table
from .yaml_writer import in_usual_order, written, written_documents

OUTPUTS = ("table", "yaml", "json", "name")
_BELOW = (("hasPart", ""), ("parentOf", ""), ("hasMember", "member"), ("ownerOf", "owns"))
_TABLE_FIELDS = ("kind", "metadata.name", "metadata.namespace", "metadata.title", "spec.type", "spec.lifecycle", "relations")
Document = Dict[str, Any]


def related(document: Document, kind: str) -> List[str]:
    """The references that a document has a relation of this kind to."""
    return [one["targetRef"] for one in document.get("relations", ()) if one["type"] == kind]


def short(reference: str) -> str:
    """A reference without the namespace `default`."""
    return reference.replace(":default/", ":", 1)


def found(server: Server, text: str, kind: Optional[str] = None) -> Document:
    """The document that a reference names; without a kind, the only one of that name."""
    try:
        wanted = Reference.parse(text, kind)
    except ReferenceFault:
        return _found_by_name(server, text)
    document = server.document(wanted.kind, wanted.namespace, wanted.name)
    if document is None:
        raise ClientError(f"the catalogue has no {wanted}")
    return document


def _found_by_name(server: Server, text: str) -> Document:
    try:
        wanted = Reference.parse(text, "any")
    except ReferenceFault as fault:
        raise WordsError(f"'{text}' is no reference: {fault}") from None
    condition = f"metadata.name={wanted.name},metadata.namespace={wanted.namespace}"
    documents = list(server.documents([("filter", condition)]))
    if len(documents) == 1:
        return documents[0]
    if not documents:
        raise ClientError(f"the catalogue has nothing with the name {text}")
    raise ClientError(f"{text} may be {' or '.join(str(reference_of(document)) for document in documents)}")


def get(server: Server, text: str, output: str) -> int:
    """Shows one entity."""
    document = found(server, text)
    if output == "yaml":
        print(written(in_usual_order(document)), end="")
    elif output == "json":
        print(json.dumps(document, indent=2, ensure_ascii=False))
    elif output == "name":
        print(reference_of(document))
    else:
        print(_described(document))
    return OK


def _described(document: Document) -> str:
    metadata, spec = document["metadata"], document["spec"]
    lines = [coloured(str(reference_of(document)), "bold")]
    facts: List[Tuple[str, Any]] = [(key, metadata.get(key)) for key in ("title", "description")]
    facts += [(key, spec.get(key)) for key in ("type", "lifecycle")]
    facts += [("tags", ", ".join(map(str, metadata.get("tags", ()))))]
    facts += [("link", f"{link.get('url')}  {link.get('title', '')}".rstrip()) for link in metadata.get("links", ())]
    facts += [(key, value) for key, value in sorted(metadata.get("annotations", {}).items())]
    shown = [(key, " ".join(str(value).split())) for key, value in facts if value]
    shown += [(one["type"], short(one["targetRef"])) for one in document.get("relations", ())]
    width = max((len(key) for key, _ in shown), default=0)
    lines += [f"  {key.ljust(width)}   {value}" for key, value in shown]
    for item in document.get("status", {}).get("items", ()):
        lines.append(coloured(f"  {item['level']}: {item['error']['name']} {item['message']}", "red"))
    return "\n".join(lines)


def list_entities(server: Server, filters: List[str], output: str) -> int:
    """Shows all entities that a filter matches."""
    query: Pairs = [("filter", text) for text in filters]
    if output in ("table", "name"):
        query.append(("fields", ",".join(_TABLE_FIELDS)))
    documents = server.documents(query)
    if output == "yaml":
        for text in written_documents(map(in_usual_order, documents)):
            print(text, end="")
    elif output == "json":
        print(json.dumps(list(documents), indent=2, ensure_ascii=False))
    elif output == "name":
        for document in documents:
            print(reference_of(document))
    else:
        print(entity_table(documents))
    return OK


def entity_table(documents: Iterable[Document]) -> str:
    """Entities in a table, with their number below it."""
    rows = [_row(document) for document in documents]
    shown = table(("KIND", "NAME", "TYPE", "LIFECYCLE", "SYSTEM", "OWNER"), rows)
    return f"{shown}\n{counted(len(rows), 'entity', 'entities')}."


def _row(document: Document) -> Tuple[str, ...]:
    reference, spec = reference_of(document), document.get("spec", {})
    name = reference.name if reference.namespace == "default" else f"{reference.namespace}/{reference.name}"
    part_of = [short(one) for one in related(document, "partOf")]
    owners = [short(one) for one in related(document, "ownedBy")]
    return (document["kind"], name, str(spec.get("type", "")), str(spec.get("lifecycle", "")), ", ".join(part_of), ", ".join(owners))


def tree(server: Server, text: str) -> int:
    """Draws what a domain, a system or a group has, and what that has."""
    root = found(server, text)
    documents = _all_below(server, root)
    seen: Set[str] = set()
    for line in _drawn(documents, str(reference_of(root)), "", "", "", seen):
        print(line)
    return OK


def _below(document: Document) -> Iterator[Tuple[str, str]]:
    """What a document has, with the word that says how."""
    for relation, word in _BELOW:
        for reference in related(document, relation):
            yield reference, word


def _all_below(server: Server, root: Document) -> Dict[str, Document]:
    """The documents below one, asked for level by level."""
    known = {str(reference_of(root)): root}
    level = [root]
    while level:
        wanted = sorted({reference for document in level for reference, _ in _below(document)} - set(known))
        level = [document for document in server.documents_of(wanted) if document is not None]
        known.update({str(reference_of(document)): document for document in level})
    return known


def _drawn(documents: Dict[str, Document], reference: str, lead: str, branch: str, word: str, seen: Set[str]) -> Iterator[str]:
    document = documents.get(reference)
    title = document["metadata"].get("title") if document else None
    notes = [word] if word else []
    notes += ["not in the catalogue"] if document is None else []
    notes += ["see above"] if reference in seen else []
    shown = f"{lead}{branch}{short(reference)}" + (f"  {title}" if title else "")
    yield shown + (coloured(f"  ({', '.join(notes)})", "dim") if notes else "")
    if document is None or reference in seen:
        return
    seen.add(reference)
    below = _shown_below(documents, document)
    deeper = lead + {"": "", "├─ ": "│  ", "└─ ": "   "}[branch]
    for position, (child, child_word) in enumerate(below):
        yield from _drawn(documents, child, deeper, "└─ " if position == len(below) - 1 else "├─ ", child_word, seen)


def _shown_below(documents: Dict[str, Document], document: Document) -> List[Tuple[str, str]]:
    """What is drawn below a document: of what it owns, parts of what it owns are drawn there alone."""
    owned = set(related(document, "ownerOf"))
    below = []
    for reference, word in _below(document):
        child = documents.get(reference)
        if not (word == "owns" and child and owned.intersection(related(child, "partOf"))):
            below.append((reference, word))
    return below


def owners(server: Server, text: str) -> int:
    """Shows who owns an entity, and whom these belong to."""
    document = found(server, text)
    level = related(document, "ownedBy")
    if not level:
        print(f"{reference_of(document)} has no owner.")
        return OK
    rows: List[Tuple[str, ...]] = []
    seen: Set[str] = set()
    depth = 0
    while level:
        seen.update(level)
        documents = server.documents_of(level)
        rows += [_owner_row(reference, owner, depth) for reference, owner in zip(level, documents)]
        above = [one for owner in documents if owner for kind in ("childOf", "memberOf") for one in related(owner, kind)]
        level = sorted(set(above) - seen)
        depth += 1
    print(table(("OWNER", "NAME", "E-MAIL", "MEMBERS"), rows))
    return OK


def _owner_row(reference: str, owner: Optional[Document], depth: int) -> Tuple[str, ...]:
    shown = "  " * depth + short(reference)
    if owner is None:
        return (shown, "(not in the catalogue)", "", "")
    profile = owner["spec"].get("profile", {})
    name = profile.get("displayName") or owner["metadata"].get("title") or ""
    members = ", ".join(short(member) for member in related(owner, "hasMember"))
    return (shown, name, profile.get("email", ""), members)


def owned(server: Server, text: str, with_children: bool, output: str) -> int:
    """Shows what a group or a user owns."""
    owner = found(server, text, "group")
    level, groups = [owner], [str(reference_of(owner))]
    while with_children and level:
        below = sorted({child for group in level for child in related(group, "parentOf")} - set(groups))
        groups += below
        level = [document for document in server.documents_of(below) if document is not None]
    condition = ",".join(f"relations.ownedBy={group}" for group in groups)
    return list_entities(server, [condition], output)
