"""The client's rules of descriptors are those of the catalogue."""

from __future__ import annotations

import copy
import random
import re
import unittest
from typing import Any, Dict, List, Set

from .support import Served, component, descriptor, group

from wirgatsu.names import Reference, ReferenceFault, is_key, is_name, is_namespace, is_tag
from wirgatsu.places import dotted
from wirgatsu.reading import profile_breaches

VALUES: List[Any] = [None, True, 7, "", "a", "a b", "A", "a-", "-a", "a_b", "a.b", "a/b", "x/y/z", "k:a", "k:n/a", "resource:default/a", "1:b", "a--b", "c++",
    "java",
                     "é", "a" * 63, "a" * 64, [], ["a"], ["", "b"], [1], {}, {"a": "b"}, {"a b": "c"}, {"a.example/b": "c"}, {"url": "x"}, [{"url": "x"}],
                     [{"url": ""}], [{"url": "x", "title": 1}], ["component:a", "k:b/c"], "url", "a b:c", "optional", {"email": 1}, {"displayName": "x"}]
FIELDS = ["apiVersion", "kind", "metadata.title", "metadata.description", "metadata.labels", "metadata.annotations", "metadata.tags", "metadata.links",
          "metadata.labels.x", "metadata.annotations.x", "spec", "spec.type", "spec.lifecycle", "spec.owner", "spec.definition", "spec.system",
          "spec.subcomponentOf",
          "spec.providesApis", "spec.consumesApis", "spec.dependsOn", "spec.dependencyOf", "spec.domain", "spec.subdomainOf", "spec.parent", "spec.children",
          "spec.members", "spec.memberOf", "spec.profile", "spec.presence", "spec.target", "spec.targets", "spec.other"]
BASES = [component("a"), group("a"), descriptor("User", "a", {}), descriptor("API", "a", {"type": "x", "lifecycle": "x", "owner": "x", "definition": "x"}),
         descriptor("Resource", "a", {"type": "x", "owner": "x"}), descriptor("System", "a", {"owner": "x"}), descriptor("Domain", "a", {"owner": "x"}),
         descriptor("Location", "a", {"type": "file", "presence": "optional"})]


def drawn_descriptor(drawn: random.Random) -> Dict[str, Any]:
    """A descriptor of which some fields were changed or taken away."""
    made = copy.deepcopy(drawn.choice(BASES))
    for _ in range(drawn.randrange(4)):
        *path, last = drawn.choice(FIELDS).split(".")
        owner: Any = made
        for step in path:
            owner = owner.get(step) if isinstance(owner, dict) else None
        if not isinstance(owner, dict):
            continue
        if drawn.random() < 0.25:
            owner.pop(last, None)
        else:
            owner[last] = copy.deepcopy(drawn.choice(VALUES))
    return made


class Names(unittest.TestCase):
    """The forms of names."""

    def test_forms(self) -> None:
        for test, good, bad in (
                (is_name, ["a", "A-b_c.d", "a" * 63, "1"], ["", "-a", "a.", "a" * 64, "a b", "é", "a\n"]),
                (is_namespace, ["a", "a-b"], ["a.b", "a_b", "-a", "a" * 64]),
                (is_key, ["a", "a.example/b", "A.B/c", "a/b"], ["/b", "a/", "a_b/c", "a/b/c", ".a/b", "a" * 254 + "/b"]),
                (is_tag, ["a", "c++", "c#", "a-b", "a:b", "1"], ["", "A", "a--b", "-a", "a-", "a_b", "a" * 64])):
            self.assertEqual([text for text in good if not test(text)] + [text for text in bad if test(text)], [])

    def test_references(self) -> None:
        self.assertEqual(str(Reference.parse("Component:Default/Web")), "component:default/web")
        self.assertEqual(str(Reference.parse("web", "component", "n")), "component:n/web")
        for text in ("", "a", "a:", "/a", "a/", "a/b:c", "a:b:c", "a/b/c", "a:b/c/d", "1:b", "k:_/b", "k:a/-", ":a", "k:/a"):
            with self.subTest(text), self.assertRaises(ReferenceFault):
                Reference.parse(text)


class SameAsTheServer(Served):
    """Drawn descriptors have the same breaches here and there."""

    def test_drawn(self) -> None:
        drawn = random.Random(11)
        made = []
        for number in range(400):
            one = drawn_descriptor(drawn)
            one["metadata"]["name"] = f"n{number}"
            if isinstance(one.get("kind"), str) and re.fullmatch("[A-Za-z][A-Za-z0-9]{0,62}", one["kind"]):
                made.append(one)
        answer = self.catalogue.ask("POST", "/providers/p/full", {"serial": 1, "entities": [{"entity": one} for one in made]})
        self.assertEqual(answer, {"again": False})
        self.catalogue.ask("POST", "/settle")
        failed = {found["entityRef"].partition("/")[2]: {self.place(item["message"]) for item in found["items"] if item["error"]["name"] != "TargetFault"}
                  for found in self.catalogue.ask("GET", "/failed")}
        for one in made:
            with self.subTest(one):
                self.assertEqual(self.here(one), failed.get(one["metadata"]["name"], set()))
        self.assertGreater(len([places for places in failed.values() if places]), 100)

    @staticmethod
    def place(message: str) -> str:
        """The place that a breach names; the rule about links names the link, where the client names its url."""
        return message.partition(" ")[2]

    @staticmethod
    def here(one: Dict[str, Any]) -> Set[str]:
        places = {dotted(breach.path) for breach in profile_breaches(one)}
        return {re.sub(r"^(metadata\.links\.\d+)\.url$", r"\1", place) for place in places}


if __name__ == "__main__":
    unittest.main()
