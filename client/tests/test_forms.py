"""Eleven forms of `catalog-info.yaml` as they stand in public repositories. Each comes in, or what of it can't is named with its place."""

from __future__ import annotations

import unittest

from .support import COMPONENT_YAML, Folder


class ElevenForms(Folder):
    """One test a form."""

    def test_1_folded_text(self) -> None:
        text = COMPONENT_YAML.format(name="web\n  description: >-\n    Pages of\n    the shop")
        self.assertEqual(self.one(text)["metadata"]["description"], "Pages of the shop")

    def test_2_map_in_braces(self) -> None:
        found = self.one("apiVersion: backstage.io/v1alpha1\nkind: Group\nmetadata: {name: team-a, title: 'Team A'}\nspec: {type: team, children: []}\n")
        self.assertEqual((found["metadata"]["title"], found["spec"]), ("Team A", {"type": "team", "children": []}))

    def test_3_anchor_and_alias(self) -> None:
        text = COMPONENT_YAML.format(name="&name web\n  title: *name")
        self.assertEqual(self.one(text)["metadata"]["title"], "web")

    def test_4_text_over_several_lines(self) -> None:
        text = COMPONENT_YAML.format(name="web\n  description: Pages of\n    the shop,\n    all of them\n  title: \"two\n    lines\"")
        metadata = self.one(text)["metadata"]
        self.assertEqual((metadata["description"], metadata["title"]), ("Pages of the shop, all of them", "two lines"))

    def test_5_number_with_a_fraction(self) -> None:
        text = COMPONENT_YAML.format(name="web") + "  version: 1.50\n"
        self.assertEqual(self.problems(self.read_text(text)), [
            "catalog-info.yaml:9:12: spec.version is 1.50, and the catalogue holds no fractions (quote it, or give --numbers-as-text)"])
        self.assertEqual(self.one(text, numbers_as_text=True)["spec"]["version"], "1.50")

    def test_6_definition_in_another_file(self) -> None:
        self.write("api/openapi.yaml", "openapi: 3.0.0\ninfo: {version: 1.0}\n")
        text = ("apiVersion: backstage.io/v1alpha1\nkind: API\nmetadata:\n  name: orders\nspec:\n  type: openapi\n  lifecycle: production\n"
                "  owner: team-a\n  definition:\n    $text: ./api/openapi.yaml\n")
        self.assertEqual(self.one(text)["spec"]["definition"], "openapi: 3.0.0\ninfo: {version: 1.0}\n")

    def test_7_relative_targets(self) -> None:
        self.write("teams/a.yaml", COMPONENT_YAML.format(name="a"))
        self.write("services/b/catalog-info.yaml", COMPONENT_YAML.format(name="b"))
        self.write("services/c/catalog-info.yaml", COMPONENT_YAML.format(name="c"))
        reading = self.read_text("apiVersion: backstage.io/v1alpha1\nkind: Location\nmetadata:\n  name: all\nspec:\n  type: url\n"
                                 "  targets:\n    - ./teams/a.yaml\n    - ./services/*/catalog-info.yaml\n")
        self.assertEqual(self.problems(reading), [])
        self.assertEqual(sorted(reading.entities), [f"component:default/{name}" for name in "abc"] + ["location:default/all"])

    def test_8_location_with_a_missing_target(self) -> None:
        self.write("a.yaml", COMPONENT_YAML.format(name="a"))
        reading = self.read_text("apiVersion: backstage.io/v1alpha1\nkind: Location\nmetadata:\n  name: all\nspec:\n"
                                 "  targets: [./gone.yaml, ./a.yaml]\n")
        self.assertEqual(self.problems(reading), ["catalog-info.yaml:6:13: spec.targets.0 names ./gone.yaml, and there is no such file"])
        self.assertEqual(sorted(reading.entities), ["component:default/a", "location:default/all"])

    def test_9_template_beside_a_component(self) -> None:
        text = (COMPONENT_YAML.format(name="web") + "---\napiVersion: scaffolder.backstage.io/v1beta3\nkind: Template\nmetadata:\n  name: new-service\n"
                "spec:\n  steps:\n    - id: fetch\n      input: {url: ./skeleton, values: ${{ parameters.values }}}\n")
        reading = self.read_text(text.replace("${{ parameters.values }}", "'${{ parameters.values }}'"))
        self.assertEqual(self.problems(reading), ["catalog-info.yaml:11:7: Template 'new-service' is left out: the catalogue has no kind Template"])
        self.assertEqual(list(reading.entities), ["component:default/web"])
        self.assertEqual(self.problems(self.read("catalog-info.yaml", skipped_kinds=frozenset(["Template"]))), [])

    def test_10_directive_and_marks(self) -> None:
        text = "# who owns what\n%YAML 1.2\n---\n" + COMPONENT_YAML.format(name="web") + "...\n---\n" + COMPONENT_YAML.format(name="lib") + "...\n"
        self.assertEqual(sorted(self.read_text(text).entities), ["component:default/lib", "component:default/web"])

    def test_11_words_that_older_yaml_takes_for_something_else(self) -> None:
        annotations = "    example.com/on-call: on\n    example.com/since: 2021-01-31\n    example.com/at: 12:30:45"
        text = COMPONENT_YAML.format(name="web\n  title: no\n  annotations:\n" + annotations)
        metadata = self.one(text)["metadata"]
        self.assertEqual(metadata["title"], "no")
        self.assertEqual([metadata["annotations"][f"example.com/{key}"] for key in ("on-call", "since", "at")], ["on", "2021-01-31", "12:30:45"])


if __name__ == "__main__":
    unittest.main()
