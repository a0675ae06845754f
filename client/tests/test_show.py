"""Showing and watching what a real server has, and the parts of it that need none."""

from __future__ import annotations

import contextlib
import io
import json
import threading
import time
import unittest
from unittest import mock

import yaml

from .support import COMPONENT_YAML, Served, component, descriptor, group, run

from wirgatsu.errors import NoServerError, RefusedError
from wirgatsu.filters import conditions_of, matches
from wirgatsu.terminal import Progress, coloured, table
from wirgatsu.watching import Copy, watch


class Showing(Served):
    """Each command that shows something."""

    def setUp(self) -> None:
        super().setUp()
        given = [component("web", "team-a", system="shop", consumesApis=["orders"]), component("lib", "team-b"), descriptor("System", "shop",
            {"owner": "team-a", "domain": "trade"}),
                 descriptor("Domain", "trade", {"owner": "team-b"}), group("team-a", parent="dept", profile={"displayName": "Team A",
                 "email": "a@b.example"}), group("team-b"),
                 group("dept"), descriptor("User", "ann", {"memberOf": ["team-a"]}), component("web", "ann", system="shop") | {"metadata": {"name": "web",
                 "namespace": "other"}}]
        self.catalogue.ask("POST", "/providers/git/full", {"serial": 1, "entities": [{"entity": one} for one in given]})
        self.catalogue.ask("POST", "/settle")

    def test_get(self) -> None:
        shown = self.run_ok("get", "component:web")
        self.assertIn("component:default/web", shown)
        self.assertIn("ownedBy       group:team-a", shown)
        self.assertEqual(json.loads(self.run_ok("get", "component:web", "-o", "json")), yaml.safe_load(self.run_ok("get", "web", "-o", "yaml")))
        self.assertEqual(self.run_ok("get", "other/web", "-o", "name"), "component:other/web\n")
        for words, status in ((("get", "component:none"), 1), (("get", "none"), 1), (("get", "a b"), 2)):
            self.assertEqual(run(*words, "--server", self.server)[0], status)

    def test_list(self) -> None:
        self.assertEqual(self.run_ok("list", "--filter", "kind=group", "-o", "name").split(), ["group:default/dept", "group:default/team-a",
            "group:default/team-b"])
        self.assertEqual(len(json.loads(self.run_ok("list", "-o", "json"))), 9)
        self.assertEqual(len(list(yaml.safe_load_all(self.run_ok("list", "-o", "yaml")))), 9)
        self.assertEqual(self.run_ok("list", "--filter", "kind=component,spec.system=none", "--filter", "metadata.name=lib"),
                         "KIND        NAME   TYPE      LIFECYCLE    SYSTEM   OWNER\n"
                         "Component   lib    service   production            group:team-b\n1 entity.\n")

    def test_owned_and_owners(self) -> None:
        self.assertEqual(self.run_ok("owned", "group:team-a", "-o", "name").split(), ["component:default/web", "system:default/shop"])
        self.assertEqual(self.run_ok("owned", "dept", "-o", "name"), "")
        self.assertEqual(len(self.run_ok("owned", "dept", "--with-children", "-o", "name").split()), 2)
        self.assertEqual(self.run_ok("owned", "user:ann", "-o", "name").split(), [])
        shown = self.run_ok("owners", "component:web").splitlines()
        self.assertEqual([line.split()[0] for line in shown], ["OWNER", "group:team-a", "group:dept"])
        self.assertIn("a@b.example", shown[1])
        self.assertIn("has no owner", self.run_ok("owners", "dept"))

    def test_tree(self) -> None:
        self.assertEqual(self.run_ok("tree", "trade"), "domain:trade\n└─ system:shop\n   ├─ component:web\n   └─ component:other/web\n".replace(
            "   ├─ component:web\n   └─ component:other/web\n", "   └─ component:web\n"))
        shown = self.run_ok("tree", "dept")
        self.assertEqual(shown, "group:dept\n└─ group:team-a\n   ├─ user:ann  (member)\n   └─ system:shop  (owns)\n      └─ component:web\n")

    def test_status(self) -> None:
        self.assertEqual(self.run_ok("status"), "0 failed entities, 0 conflicts, 0 orphans.\n")
        bad = component("bad", "team-a", dependsOn=["db"])
        self.catalogue.ask("POST", "/providers/hr/full", {"serial": 1, "entities": [{"entity": bad}, {"entity": component("web", "team-b")}]})
        self.catalogue.ask("POST", "/settle")
        status, out, _ = run("status", "--server", self.server)
        self.assertEqual(status, 1)
        self.assertIn("component:default/bad   ReferenceFault: NoKind spec.dependsOn.0", out)
        self.assertIn("component:default/web   provider:hr waits, since provider:git gave it first", out)

    def test_watch(self) -> None:
        def change() -> None:
            time.sleep(0.5)
            self.catalogue.ask("POST", "/providers/hr/full", {"serial": 1, "entities": [{"entity": component("new", "team-b")}, {"entity": component("x",
                "team-c")}]})
            time.sleep(1.5)
            self.catalogue.ask("POST", "/providers/hr/full", {"serial": 2, "entities": [{"entity": component("new", "team-b", type="library")}]})
            time.sleep(1.5)
            self.catalogue.ask("POST", "/providers/hr/full", {"serial": 3, "entities": []})

        thread = threading.Thread(target=change)
        thread.start()
        status, out, err = run("watch", "--filter", "kind=component,relations.ownedBy=group:default/team-b", "--interval", "0.2", "--count", "3", "--server",
            self.server)
        thread.join()
        self.assertEqual(status, 0)
        self.assertEqual([line.split()[1:] for line in out.splitlines()], [
            ["added", "component:default/new"], ["changed", "component:default/new", "spec.type"], ["removed", "component:default/new"]])
        self.assertIn("Watching 1 entity", err)


class Healing(unittest.TestCase):
    """A copy of the documents, where the server doesn't know what changed any more."""

    def test_gap(self) -> None:
        answers = [{"from": None, "to": "1.1", "changes": [{"entityRef": "a", "set": {"x": 1}}, {"entityRef": "b", "set": {"x": 1}}]},
                   RefusedError("", 410, "gone 2.0"),
                   {"from": None, "to": "2.5", "changes": [{"entityRef": "b", "set": {"x": 2}}, {"entityRef": "c", "set": {"x": 1}}]},
                   {"from": "2.5", "to": "2.6", "changes": [{"entityRef": "b"}]}]
        server = mock.Mock(changes=mock.Mock(side_effect=answers))
        copy = Copy([])
        self.assertEqual([(event.mark, event.reference) for event in copy.follow(server)], [("+", "a"), ("+", "b")])
        self.assertEqual([(event.mark, event.reference) for event in copy.follow(server)], [("~", "b"), ("+", "c"), ("-", "a")])
        self.assertEqual([(event.mark, event.reference) for event in copy.follow(server)], [("-", "b")])
        self.assertEqual([call.args for call in server.changes.call_args_list], [(None,), ("1.1",), (None,), ("2.5",)])


    def test_server_that_goes_and_comes(self) -> None:
        answers = [{"from": None, "to": "1.0", "changes": []}, NoServerError("no server"), NoServerError("no server"), RefusedError("", 410, "gone 2.0"),
                   {"from": None, "to": "2.0", "changes": [{"entityRef": "a", "set": component("a")}]}]
        server = mock.Mock(changes=mock.Mock(side_effect=answers))
        out, err = io.StringIO(), io.StringIO()
        with mock.patch("time.sleep"), contextlib.redirect_stdout(out), contextlib.redirect_stderr(err):
            self.assertEqual(watch(server, [], 1.0, 1, "json"), 0)
        self.assertEqual(json.loads(out.getvalue())["change"], "added")
        self.assertEqual(err.getvalue().splitlines()[1:], ["no server; waiting for it."])


class Filters(unittest.TestCase):
    """Filters as the server reads them."""

    def test_filters(self) -> None:
        document = {**component("Web", "a", flag=True, size=7), "relations": [{"type": "ownedBy", "targetRef": "group:default/a"}]}
        document["metadata"]["tags"] = ["Java"]
        for text, holds in (("", True), ("kind=COMPONENT", True), ("kind=api,kind=component", True), ("kind=component,spec.type=x", False),
            ("metadata.tags.java", True),
                            ("metadata.tags=java", True), ("spec.flag=true, spec.size=7 ,", True), ("relations.ownedby=group:default/A", True), ("relations",
                            False), ("spec", False)):
            self.assertEqual(matches(document, [conditions_of(text)]), holds, text)
        self.assertTrue(matches(document, []))
        self.assertTrue(matches(document, [conditions_of("kind=api"), conditions_of("metadata.name=web")]))


class Terminal(unittest.TestCase):
    """Tables, colours and progress."""

    class Screen(io.StringIO):
        def isatty(self) -> bool:
            return True

    def test_colours(self) -> None:
        screen = self.Screen()
        with mock.patch.dict("os.environ", {"TERM": "xterm"}, clear=True):
            self.assertEqual(coloured("a", "red", screen), "\x1b[31ma\x1b[0m")
            self.assertEqual(coloured("a", "red", io.StringIO()), "a")
        with mock.patch.dict("os.environ", {"NO_COLOR": "1"}):
            self.assertEqual(coloured("a", "red", screen), "a")

    def test_progress(self) -> None:
        screen, pipe = self.Screen(), io.StringIO()
        for stream in (screen, pipe):
            with mock.patch("time.monotonic", side_effect=range(0, 1000, 10)), Progress("reading", 4, stream) as progress:
                progress.at(2)
        self.assertIn("reading [###############...............] 2 of 4", screen.getvalue())
        self.assertTrue(screen.getvalue().endswith("\r\x1b[K"))
        self.assertEqual(pipe.getvalue(), "reading: 2 of 4\n")

    def test_table(self) -> None:
        self.assertEqual(table(("A", "B"), [("long", ""), ("x", "y")]), "A      B\nlong\nx      y")


if __name__ == "__main__":
    unittest.main()
