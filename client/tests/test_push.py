"""Pushing to a real server."""

from __future__ import annotations

import io
import json
import os
import socket
import threading
import unittest
from typing import Any, Dict, List
from unittest import mock

from .support import COMPONENT_YAML, Folder, Proxy, Served, component, free_port, group, run

from wirgatsu.entities import entity_of
from wirgatsu.places import Place
from wirgatsu.plan import Change, Plan, Wanted
from wirgatsu.push import Part, parts_of


class Terminal(io.StringIO):
    """What a person reads and answers at."""

    def isatty(self) -> bool:
        return True


def names_of(catalogue: Any) -> List[str]:
    """The names of the documents that a catalogue has."""
    return sorted(document["metadata"]["name"] for document in catalogue.documents().values())


class Parts(unittest.TestCase):
    """How a plan is cut into requests."""

    def wanted(self, count: int, prune: bool = True) -> Wanted:
        entities = [entity_of(component(f"c{number}"), "p", Place("f")) for number in range(count)]
        return Wanted("p", {entity.reference: entity for entity in entities}, prune, set())

    def plan(self, wanted: Wanted, removed: int = 0) -> Plan:
        changes = [Change("+", reference) for reference in wanted.entities]
        return Plan(changes + [Change("-", f"component:default/old{number}") for number in range(removed)])

    def parts(self, count: int, removed: int, limit: int, whole: bool = True, prune: bool = True) -> List[Part]:
        wanted = self.wanted(count, prune)
        parts = list(parts_of(self.plan(wanted, removed), wanted, whole, limit))
        for serial, part in enumerate(parts, 2**53 - 1):
            self.assertLessEqual(len(part.body(serial)), limit)
            self.assertEqual(json.loads(part.body(serial))["serial"], serial)
        return parts

    def test_one_full(self) -> None:
        self.assertEqual([part.form for part in self.parts(10, 3, 1 << 20)], ["full"])

    def test_one_delta_where_it_is_not_known_to_be_all(self) -> None:
        for whole, prune in ((False, True), (True, False)):
            parts = self.parts(10, 3 if prune else 0, 1 << 20, whole, prune)
            self.assertEqual([(part.form, len(part.given), len(part.removed)) for part in parts], [("delta", 10, 3 if prune else 0)])

    def test_deltas_of_which_the_last_removes(self) -> None:
        for count, removed, limit in ((100, 0, 2000), (100, 5, 2000), (1, 300, 2000), (0, 50, 1000), (7, 1, 400)):
            parts = self.parts(count, removed, limit, whole=False)
            self.assertGreater(len(parts), 1)
            self.assertEqual({part.form for part in parts}, {"delta"})
            self.assertEqual((sum(len(part.given) for part in parts), sum(len(part.removed) for part in parts)), (count, removed))
            first_removal = next((place for place, part in enumerate(parts) if part.removed), len(parts))
            self.assertFalse(any(part.given for part in parts[first_removal + 1:]))


class Pushing(Served):
    """What a push changes."""

    def test_life_of_a_tree(self) -> None:
        self.write("a/catalog-info.yaml", COMPONENT_YAML.format(name="a"))
        self.write("b/catalog-info.yaml", COMPONENT_YAML.format(name="b"))
        status, out, err = self.push("--dry-run")
        self.assertEqual((status, err), (0, ""))
        self.assertIn("+ component:default/a", out)
        self.assertEqual(names_of(self.catalogue), [])
        self.assertEqual(self.push()[0], 0)
        self.assertEqual(names_of(self.catalogue), ["a", "b"])
        self.assertIn("2 as they are.", self.push()[1])
        self.write("a/catalog-info.yaml", COMPONENT_YAML.format(name="a") + "  system: shop\n")
        (self.folder / "b/catalog-info.yaml").unlink()
        status, out, err = self.push()
        self.assertIn("~ component:default/a   spec.system", out)
        self.assertIn("left: component:default/b", out)
        self.assertEqual(names_of(self.catalogue), ["a", "b"])
        status, out, err = self.push("--prune")
        self.assertIn("- component:default/b", out)
        self.assertEqual((status, err, names_of(self.catalogue)), (0, "", ["a"]))

    def test_what_was_refused_stays(self) -> None:
        for name in "abc":
            self.write(f"{name}/catalog-info.yaml", COMPONENT_YAML.format(name=name))
        self.push()
        self.write("a/catalog-info.yaml", COMPONENT_YAML.format(name="a").replace("  owner: team-a\n", ""))
        (self.folder / "b/catalog-info.yaml").unlink()
        status, _, err = self.push("--prune")
        self.assertEqual((status, names_of(self.catalogue)), (1, ["a", "c"]))
        self.assertIn("catalog-info.yaml:5:1: spec.owner is required\n", err)
        self.write("a/catalog-info.yaml", "a: b: c\n")
        status, _, err = self.push("--prune")
        self.assertEqual((status, names_of(self.catalogue)), (1, ["a", "c"]))
        self.assertIn("Nothing is removed", err)

    def test_asks(self) -> None:
        self.write("catalog-info.yaml", COMPONENT_YAML.format(name="a"))
        words = ("push", str(self.folder), "--provider", "p", "--server", self.server)
        self.assertEqual(run(*words)[0], 2)
        with mock.patch("io.StringIO", Terminal):
            self.assertEqual((run(*words, stdin="n\n")[0], names_of(self.catalogue)), (1, []))
            self.assertEqual((run(*words, stdin="y\n")[0], names_of(self.catalogue)), (0, ["a"]))

    def test_other_providers_are_left_alone(self) -> None:
        self.write("catalog-info.yaml", COMPONENT_YAML.format(name="a"))
        self.catalogue.ask("POST", "/providers/other/full", {"serial": 1, "entities": [{"entity": component("a", "team-b")}, {"entity": component("b")}]})
        status, _, err = self.push("--prune")
        self.assertEqual(status, 1)
        self.assertIn("component:default/a waits, since provider other gave it first", err)
        self.assertEqual(names_of(self.catalogue), ["a", "b"])
        (self.folder / "catalog-info.yaml").write_text(COMPONENT_YAML.format(name="c"))
        status, out, err = self.push("--prune")
        self.assertEqual((status, err), (0, ""))
        self.assertIn("- component:default/a", out)
        self.assertEqual(self.catalogue.ask("GET", "/conflicts"), [])

    def test_removes_what_failed(self) -> None:
        bad = component("bad")
        bad["spec"]["dependsOn"] = ["nothing"]
        self.catalogue.ask("POST", "/providers/p/full", {"serial": 7, "entities": [{"entity": bad}]})
        self.write("catalog-info.yaml", COMPONENT_YAML.format(name="a"))
        self.assertEqual(self.push("--prune")[0], 0)
        self.assertEqual(self.catalogue.ask("GET", "/failed"), [])

    def test_what_others_gave_and_failed_is_not_removed(self) -> None:
        self.catalogue.ask("POST", "/providers/other/full", {"serial": 1, "entities": [{"entity": component("o")}]})
        self.catalogue.ask("POST", "/settle")
        self.catalogue.ask("POST", "/providers/other/full", {"serial": 2, "entities": [{"entity": component("o", dependsOn=["x"])}]})
        self.write("catalog-info.yaml", COMPONENT_YAML.format(name="a"))
        self.push("--prune")
        self.assertIn("0 to add, 0 to change, 0 to remove, 1 as they are.", self.push("--prune")[1])
        self.assertEqual(len(self.catalogue.ask("GET", "/failed")), 1)

    def test_parts(self) -> None:
        for number in range(30):
            self.write(f"{number}/catalog-info.yaml", COMPONENT_YAML.format(name=f"c{number}"))
        self.assertEqual(self.push("--body-limit", "2000")[0], 0)
        self.assertEqual(len(self.catalogue.documents()), 30)
        for number in range(25):
            (self.folder / f"{number}/catalog-info.yaml").unlink()
        self.assertEqual(self.push("--body-limit", "2000", "--prune")[0], 0)
        self.assertEqual(len(self.catalogue.documents()), 5)

    def test_two_at_once(self) -> None:
        self.write("catalog-info.yaml", COMPONENT_YAML.format(name="a"))
        asked = threading.Event()

        def answer(question: str, yes: bool) -> bool:
            if not asked.is_set():
                asked.set()
                self.write("catalog-info.yaml", COMPONENT_YAML.format(name="a").replace("team-a", "team-b"))
                self.assertEqual(self.push()[0], 0)
            return True

        with mock.patch("wirgatsu.push.confirmed", answer):
            status, out, err = self.push()
        self.assertEqual(status, 0)
        self.assertIn("Another push of this provider came between", err)
        self.assertIn("~ component:default/a   spec.owner", out)
        self.assertEqual(self.catalogue.documents()["component:default/a"]["spec"]["owner"], "team-a")

    def test_many_at_once(self) -> None:
        ended: List[int] = []
        for number in range(4):
            self.write(f"{number}/catalog-info.yaml", COMPONENT_YAML.format(name=f"c{number}"))

        def push(number: int) -> None:
            import subprocess
            import sys
            from .support import CLIENT
            ended.append(subprocess.run(
                [sys.executable, str(CLIENT / "wirgatsu"), "push", str(self.folder / str(number)), "--provider", "p", "--yes", "--server", self.server],
                capture_output=True, check=False).returncode)

        threads = [threading.Thread(target=push, args=(number,)) for number in range(4)]
        for thread in threads:
            thread.start()
        for thread in threads:
            thread.join()
        self.assertEqual((ended, names_of(self.catalogue)), ([0] * 4, [f"c{number}" for number in range(4)]))

    def test_shelf(self) -> None:
        self.write("a.yaml", COMPONENT_YAML.format(name="a"))
        self.write("b/catalog-info.yaml", COMPONENT_YAML.format(name="b").replace("name: b", "name: b\n  description: >-\n    one\n    two"))
        location = {"apiVersion": "backstage.io/v1alpha1", "kind": "Location", "metadata": {"name": "all"}, "spec": {"targets": ["./a.yaml", "./b/*.yaml"]}}
        self.write("catalog-info.yaml", json.dumps(location))
        status, out, err = self.push("--shelf")
        self.assertEqual((status, err), (0, ""), out)
        self.assertIn("b/catalog-info.yaml  as JSON", out)
        self.assertEqual(names_of(self.catalogue), ["a", "all", "b", "p-file-1"])
        self.assertEqual(self.catalogue.documents()["component:default/b"]["metadata"]["description"], "one two")
        (self.folder / "b/catalog-info.yaml").unlink()
        location["spec"]["targets"] = ["./a.yaml"]
        self.write("catalog-info.yaml", json.dumps(location))
        self.assertEqual(self.push("--shelf", "--prune")[0], 0)
        self.assertEqual(self.catalogue.ask("GET", "/orphans"), ["component:default/b"])


class Broken(Served):
    """Connections that break at each request, and servers that aren't there."""

    def setUp(self) -> None:
        super().setUp()
        self.write("a/catalog-info.yaml", COMPONENT_YAML.format(name="a"))
        self.write("b/catalog-info.yaml", json.dumps(group("team-a")))

    def proxy(self, breaks: Dict[int, str], all_after: "int | None" = None) -> Proxy:
        proxy = Proxy(self.catalogue.port, breaks, all_after)
        self.addCleanup(proxy.stop)
        return proxy

    def change(self, owner: str) -> Dict[str, Any]:
        """Writes the owner into the files, and gives the documents that the catalogue is to have."""
        self.write("a/catalog-info.yaml", COMPONENT_YAML.format(name="a").replace("team-a", owner))
        return {"owner": owner}

    def owner(self) -> Any:
        return self.catalogue.documents().get("component:default/a", {}).get("spec", {}).get("owner")

    def test_at_each_request(self) -> None:
        whole = self.proxy({})
        self.assertEqual(self.push("--prune", server=whole.address)[0], 0)
        self.assertGreater(whole.count, 5)
        for where in ("before", "after", "middle"):
            for number in range(1, whole.count + 1):
                with self.subTest(where=where, number=number):
                    owner = f"{where}-{number}"
                    self.change(owner)
                    status, out, err = self.push("--prune", server=self.proxy({number: where}).address)
                    self.assertEqual((status, self.owner()), (0, owner), out + err)

    def test_for_good(self) -> None:
        self.assertEqual(self.push("--prune")[0], 0)
        for number in range(0, 8):
            with self.subTest(number), mock.patch("time.sleep"):
                before, after = self.owner(), f"owner-{number}"
                self.change(after)
                status, _, err = self.push("--prune", server=self.proxy({}, number).address)
                self.assertEqual(status, 3, err)
                self.assertEqual(len(err.strip().splitlines()), 1, err)
                self.assertIn(self.owner(), (before, after))

    def test_taken_up_again_after_some_parts(self) -> None:
        for number in range(20):
            self.write(f"c{number}/catalog-info.yaml", COMPONENT_YAML.format(name=f"c{number}"))
        with mock.patch("time.sleep"):
            status, _, _ = self.push("--body-limit", "1500", server=self.proxy({}, 8).address)
        self.assertEqual(status, 3)
        there = len(self.catalogue.documents())
        self.assertGreater(there, 0)
        self.assertLess(there, 22)
        self.assertEqual(self.push("--body-limit", "1500", "--prune")[0], 0)
        self.assertEqual(len(self.catalogue.documents()), 22)


class NoServer(Folder):
    """Without a server."""

    def test_statuses(self) -> None:
        self.write("catalog-info.yaml", COMPONENT_YAML.format(name="a"))
        address = f"http://127.0.0.1:{free_port()}"
        for words in (("push", str(self.folder), "--yes"), ("list",), ("get", "component:a"), ("status",), ("watch",), ("export",), ("owned", "a"), ("import",
            address)):
            status, out, err = run(*words, "--server", address)
            self.assertEqual((status, out), (3, ""))
            self.assertTrue(err.startswith("wirgatsu: no server answers at http://127.0.0.1:"), err)
            self.assertEqual(err.count("\n"), 1)

    def test_words(self) -> None:
        for words in (("list", "--server", "ftp://x"), ("get", "a b"), ("push", "nowhere-at-all"), ("push", str(self.folder), "--provider", "-"), ("none",)):
            self.assertEqual(run(*words)[0], 2, words)

    def test_tokens(self) -> None:
        heard: List[bytes] = []
        for code, words in (("401 Unauthorized", "wants a token"), ("403 Forbidden", "doesn't allow this")):
            with socket.create_server(("127.0.0.1", 0)) as listener, mock.patch.dict(os.environ, {"WIRGATSU_TOKEN": "secret"}):
                def serve() -> None:
                    connection, _ = listener.accept()
                    with connection:
                        heard.append(connection.recv(65536))
                        connection.sendall(f"HTTP/1.1 {code}\r\nContent-Length: 0\r\n\r\n".encode())
                thread = threading.Thread(target=serve)
                thread.start()
                status, _, err = run("list", "--server", f"http://127.0.0.1:{listener.getsockname()[1]}")
                thread.join()
                self.assertEqual(status, 1)
                self.assertIn(words, err)
        self.assertTrue(all(b"Authorization: Bearer secret" in head for head in heard))


if __name__ == "__main__":
    unittest.main()
