"""Importing from a Backstage, and exporting."""

from __future__ import annotations

import os
import unittest
from typing import Any, Dict, List
from unittest import mock

from .support import COUNT, Served, as_backstage_has_it, backstage, component, descriptor, group, run

from wirgatsu.backstage import Backstage, default_provider, left_out_by_kind, read_backstage


def organisation(count: int) -> List[Dict[str, Any]]:
    """So many entities as Backstage has them."""
    given = [group(f"team-{number}") for number in range(10)]
    given += [component(f"c{number}", f"team-{number % 10}", dependsOn=[f"component:c{number - 1}"] if number else []) for number in range(count - 10)]
    return [as_backstage_has_it(one, number) for number, one in enumerate(given)]


class Reading(unittest.TestCase):
    """What is read of a Backstage, without a server of ours."""

    def read(self, entities: List[Dict[str, Any]], **settings: Any) -> Any:
        with backstage(entities) as stand_in, Backstage(stand_in.address) as opened:
            return read_backstage(opened, "b", settings.get("numbers_as_text", False), frozenset(settings.get("skipped", ())))

    def test_cursors(self) -> None:
        reading = self.read(organisation(5000))
        self.assertEqual((len(reading.entities), reading.problems, reading.unknown), (5000, [], None))
        body = reading.entities["component:default/c7"].body.decode()
        for made in ("relations", '"status"', '"uid"', "etag"):
            self.assertNotIn(made, body)

    def test_what_the_profile_does_not_take(self) -> None:
        entities = organisation(20)
        entities += [as_backstage_has_it(one, 100 + number) for number, one in enumerate([
            descriptor("Template", "t", {}), component("fraction", version=1.5), component("noowner", owner=""), component("big", size=2**64),
            descriptor("Location", "l", {"type": "url", "target": "./x.yaml"})])]
        reading = self.read(entities)
        self.assertEqual([str(problem) for problem in reading.problems], [
            "template:default/t: it is left out: the catalogue has no kind Template",
            "component:default/fraction: spec.version is 1.5, and the catalogue holds no fractions (quote it, or give --numbers-as-text)",
            "component:default/noowner: spec.owner must be a text that isn't empty",
            "component:default/big: spec.size is a number beyond 64 bits"])
        self.assertEqual(left_out_by_kind(reading), "Left out: 3 of kind component, 1 of kind template.")
        self.assertIn(b'"presence":"optional"', reading.entities["location:default/l"].body)
        self.assertEqual(len(self.read(entities, numbers_as_text=True, skipped=["Template"]).problems), 2)

    def test_broken_at_each_request(self) -> None:
        for number in range(1, 5):
            with backstage(organisation(1200)) as stand_in, Backstage(stand_in.address) as opened:
                stand_in.broken_at = number
                reading = read_backstage(opened, "b", False, frozenset())
                self.assertEqual((len(reading.entities), reading.unknown), (1200, None))

    def test_fewer_than_it_says(self) -> None:
        with backstage(organisation(20)) as stand_in:
            with mock.patch.object(stand_in, "entities", _Short(stand_in.entities)), Backstage(stand_in.address) as opened:
                reading = read_backstage(opened, "b", False, frozenset())
        self.assertIsNotNone(reading.unknown)

    def test_tokens_and_other_servers(self) -> None:
        with backstage(organisation(10), token="secret") as stand_in:
            status, _, err = run("import", stand_in.address, "--dry-run")
            self.assertEqual(status, 1)
            self.assertIn("wants a token", err)
            self.assertEqual(run("import", stand_in.address, "--token-env", "NOT_SET_AT_ALL")[0], 2)
            self.assertEqual(run("import", stand_in.address + "/elsewhere", "--dry-run")[0], 1)
            with Backstage(stand_in.address, "secret") as opened:
                self.assertEqual(len(list(opened.entities())), 10)

    def test_default_provider(self) -> None:
        self.assertEqual(default_provider("https://backstage.example.com/api/catalog"), "backstage-backstage.example.com")


class _Short(list):  # type: ignore[type-arg]
    """A list that says it has one more than it has."""

    def __len__(self) -> int:
        return super().__len__() + 1


class Importing(Served):
    """Imports into a real server."""

    def test_again_and_again(self) -> None:
        entities = organisation(40)
        with backstage(entities, token="secret") as stand_in, mock.patch.dict(os.environ, {"BACKSTAGE_TOKEN": "secret"}):
            words = ("import", stand_in.address, "--token-env", "BACKSTAGE_TOKEN", "--yes")
            self.assertIn("40 added", self.run_ok(*words))
            self.assertIn("40 as they are.", self.run_ok(*words))
            stand_in.entities = [one for one in entities if one["metadata"]["name"] != "c7"]
            stand_in.entities[12]["spec"]["owner"] = "team-0"
            self.assertIn("0 added, 1 changed, 1 removed.", self.run_ok(*words))
        documents = self.catalogue.documents()
        self.assertEqual(len(documents), 39)
        self.assertEqual(documents["component:default/c2"]["relations"][1]["targetRef"], "component:default/c1")

    def test_many(self) -> None:
        with backstage(organisation(COUNT)) as stand_in:
            self.assertIn(f"{COUNT:,} added", self.run_ok("import", stand_in.address, "--yes"))
        self.assertEqual(len(self.catalogue.documents()), COUNT)


class Exporting(Served):
    """What is exported is what was."""

    def give(self) -> None:
        given = [component("web", "team-a", note="yes", size=7, nested={"a": [1, None, True, "1.5", "a\nb\n"]}), group("team-a", members=["ann"]),
                 descriptor("User", "ann", {"memberOf": ["team-a"]}, namespace="hr", title="Ann é 😀", description=" two\n lines \n\n"),
                 descriptor("Location", "l", {"type": "url", "targets": ["https://a.example/x.yaml"], "presence": "optional"}),
                 descriptor("API", "orders", {"type": "openapi", "lifecycle": "x", "owner": "team-a", "definition": "openapi: 3.0.0\ninfo:\n  title: a\n"})]
        self.catalogue.ask("POST", "/providers/x/full", {"serial": 1, "entities": [{"entity": one} for one in given]})
        self.catalogue.ask("POST", "/settle")

    def test_export_and_push_again(self) -> None:
        self.give()
        file = str(self.folder / "all.yaml")
        self.assertIn("5 entities in", self.run_ok("export", "--file", file))
        other = self.start()
        status, _, err = run("push", file, "--as-is", "--provider", "x", "--yes", "--server", other.address)
        self.assertEqual((status, err), (0, ""))
        there = other.documents()
        for document in there.values():
            self.assertEqual(document["metadata"]["annotations"].pop("wirgatsu/provider"), "x")
            if not document["metadata"]["annotations"]:
                del document["metadata"]["annotations"]
        self.assertEqual(there, self.catalogue.documents())
        self.server = other.address
        self.assertEqual(self.run_ok("export"), (self.folder / "all.yaml").read_text(encoding="utf-8"))
        self.assertIn("5 as they are.", self.run_ok("push", file, "--as-is", "--provider", "x", "--yes", "--prune"))

    def test_shop_pushed_exported_pushed(self) -> None:
        self.write("catalog-info.yaml", "\n---\n".join((
            "apiVersion: backstage.io/v1alpha1\nkind: Location\nmetadata: {name: all}\nspec: {targets: [./more/*.yaml]}\n",
            "apiVersion: backstage.io/v1alpha1\nkind: Group\nmetadata: {name: team-a}\nspec: {type: team, children: []}\n")))
        self.write("more/a.yaml", "apiVersion: backstage.io/v1alpha1\nkind: Component\nmetadata: {name: a, description: >-\n  x}\n"
                                  .replace(">-\n  x", "'x'") + "spec: {type: service, lifecycle: x, owner: team-a}\n")
        self.assertEqual(self.push()[0], 0)
        self.run_ok("export", "--file", str(self.folder / "all.yaml"))
        self.assertIn("3 as they are.", run("push", str(self.folder / "all.yaml"), "--provider", "p", "--yes", "--prune", "--server", self.server)[1])


if __name__ == "__main__":
    unittest.main()
