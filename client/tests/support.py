"""What the tests share: files, a server of the real program, a proxy that breaks connections, and a Backstage that isn't one."""

from __future__ import annotations

import base64
import contextlib
import http.client
import http.server
import io
import json
import os
import socket
import subprocess
import sys
import tempfile
import threading
import time
import unittest
from pathlib import Path
from typing import Any, Dict, Iterator, List, Optional, Tuple
from unittest import mock
from urllib.parse import parse_qs, urlsplit

CLIENT = Path(__file__).resolve().parent.parent
sys.path.insert(0, str(CLIENT / "src"))
PROGRAM = os.environ.get("WIRGATSU_PROGRAM")
# how many entities the large tests have; fewer where the program is a slow one
COUNT = int(os.environ.get("WIRGATSU_TEST_COUNT", "5000"))


def descriptor(kind: str, name: str, spec: Dict[str, Any], **metadata: Any) -> Dict[str, Any]:
    """A descriptor."""
    return {"apiVersion": "backstage.io/v1alpha1", "kind": kind, "metadata": {"name": name, **metadata}, "spec": spec}


def component(name: str, owner: str = "team-a", **spec: Any) -> Dict[str, Any]:
    """A Component of which all rules hold."""
    return descriptor("Component", name, {"type": "service", "lifecycle": "production", "owner": owner, **spec})


def group(name: str, **spec: Any) -> Dict[str, Any]:
    """A Group of which all rules hold."""
    return descriptor("Group", name, {"type": "team", "children": [], **spec})


COMPONENT_YAML = """apiVersion: backstage.io/v1alpha1
kind: Component
metadata:
  name: {name}
spec:
  type: service
  lifecycle: production
  owner: team-a
"""


class Folder(unittest.TestCase):
    """A test with a folder of its own, which isn't in a checkout."""

    def setUp(self) -> None:
        held = tempfile.TemporaryDirectory()
        self.addCleanup(held.cleanup)
        self.folder = Path(os.path.realpath(held.name))

    def write(self, name: str, text: "str | bytes") -> Path:
        """Writes a file below the folder."""
        path = self.folder / name
        path.parent.mkdir(parents=True, exist_ok=True)
        path.write_bytes(text if isinstance(text, bytes) else text.encode("utf-8"))
        return path

    def read(self, *names: str, **settings: Any) -> Any:
        """Reads files or folders below the folder."""
        from wirgatsu.finding import USUAL_NAMES, Finder
        from wirgatsu.reading import FileReader, Settings
        finder = Finder()
        reader = FileReader(Settings(**settings), finder)
        paths = [str(self.folder / name) for name in names] or [str(self.folder)]
        return reader.read(finder.roots(paths, settings.get("patterns", USUAL_NAMES), settings.get("excluded", ())))

    def read_text(self, text: "str | bytes", **settings: Any) -> Any:
        """Reads one file with this text."""
        self.write("catalog-info.yaml", text)
        return self.read("catalog-info.yaml", **settings)

    def one(self, text: "str | bytes", **settings: Any) -> Dict[str, Any]:
        """The one descriptor of a text, of which nothing is refused."""
        reading = self.read_text(text, **settings)
        self.assertEqual([str(problem) for problem in reading.problems], [])
        self.assertEqual(len(reading.entities), 1)
        return json.loads(next(iter(reading.entities.values())).body)

    def problems(self, reading: Any) -> List[str]:
        """The problems, with paths as they are below the folder."""
        return [str(problem).replace(str(self.folder) + "/", "") for problem in reading.problems]


def run(*words: str, stdin: str = "") -> Tuple[int, str, str]:
    """Runs the client's command line in this process: its status, output and errors."""
    from wirgatsu.cli import main
    out, err = io.StringIO(), io.StringIO()
    with contextlib.redirect_stdout(out), contextlib.redirect_stderr(err), mock.patch("sys.stdin", io.StringIO(stdin)):
        try:
            status = main(list(words))
        except SystemExit as ended:
            status = int(ended.code or 0)
    return status, out.getvalue(), err.getvalue()


def free_port() -> int:
    """A port that nothing listens at."""
    with socket.socket() as held:
        held.bind(("127.0.0.1", 0))
        return held.getsockname()[1]


class Catalogue:
    """A server of the real program, with nothing in it."""

    def __init__(self) -> None:
        self.port = free_port()
        self.address = f"http://127.0.0.1:{self.port}"
        self._process = subprocess.Popen(
            [str(PROGRAM), "serve", f"127.0.0.1:{self.port}"], stdout=subprocess.DEVNULL, stderr=subprocess.DEVNULL)
        for _ in range(600):
            with contextlib.suppress(OSError), socket.create_connection(("127.0.0.1", self.port), 1):
                return
            time.sleep(0.05)
        raise RuntimeError("the program doesn't listen")

    def stop(self) -> None:
        """Ends the program."""
        self._process.kill()
        self._process.wait()

    def ask(self, method: str, path: str, body: Any = None) -> Any:
        """A request beside the client."""
        connection = http.client.HTTPConnection("127.0.0.1", self.port, timeout=600)
        connection.request(method, path, None if body is None else json.dumps(body))
        data = connection.getresponse().read()
        connection.close()
        return json.loads(data) if data else None

    def documents(self) -> Dict[str, Any]:
        """All documents, by reference, without what differs from one catalogue to the next."""
        self.ask("POST", "/settle")
        found = {}
        for change in self.ask("GET", "/changes")["changes"]:
            change["set"]["metadata"].pop("uid")
            found[change["entityRef"]] = change["set"]
        return found


@unittest.skipUnless(PROGRAM, "WIRGATSU_PROGRAM names no program")
class Served(Folder):
    """A test with a server of its own."""

    def setUp(self) -> None:
        super().setUp()
        self.catalogue = self.start()
        self.server = self.catalogue.address

    def start(self) -> Catalogue:
        """Starts a server that ends with the test."""
        catalogue = Catalogue()
        self.addCleanup(catalogue.stop)
        return catalogue

    def run_ok(self, *words: str) -> str:
        """Runs a command against the server, which must go well."""
        status, out, err = run(*words, "--server", self.server)
        self.assertEqual((status, err), (0, ""), out)
        return out

    def push(self, *words: str, server: Optional[str] = None) -> Tuple[int, str, str]:
        """Pushes the folder under the provider `p` without being asked."""
        return run("push", str(self.folder), "--provider", "p", "--yes", "--server", server or self.server, *words)


class Proxy(threading.Thread):
    """Hands requests on to a server, one after the other, and breaks the connection at some of them.

    `breaks` says for the number of a request where: `before` it is handed on, `after` it was, or in the `middle` of its answer.
    """

    def __init__(self, port: int, breaks: Dict[int, str], all_after: Optional[int] = None) -> None:
        super().__init__(daemon=True)
        self.breaks, self.all_after, self.count = breaks, all_after, 0
        self._port = port
        self._lock = threading.Lock()
        self._listener = socket.create_server(("127.0.0.1", 0))
        self.address = f"http://127.0.0.1:{self._listener.getsockname()[1]}"
        self.start()

    def run(self) -> None:
        with contextlib.suppress(OSError):
            while True:
                connection, _ = self._listener.accept()
                threading.Thread(target=self._serve, args=(connection,), daemon=True).start()

    def stop(self) -> None:
        """Listens no more."""
        self._listener.close()

    def _serve(self, connection: socket.socket) -> None:
        with connection, connection.makefile("rb") as stream, contextlib.suppress(OSError):
            while True:
                head = self._head(stream)
                if not head:
                    return
                body = stream.read(self._length(head))
                with self._lock:
                    self.count += 1
                    number = self.count
                if not self._answer(connection, number, head + body):
                    return

    @staticmethod
    def _head(stream: Any) -> bytes:
        head = b""
        for line in stream:
            head += line
            if line == b"\r\n":
                return head
        return b""

    @staticmethod
    def _length(head: bytes) -> int:
        lines = [line for line in head.lower().split(b"\r\n") if line.startswith(b"content-length:")]
        return int(lines[0].split(b":")[1]) if lines else 0

    def _answer(self, connection: socket.socket, number: int, request: bytes) -> bool:
        where = self.breaks.get(number, "before" if self.all_after is not None and number > self.all_after else "")
        if where == "before":
            return False
        with socket.create_connection(("127.0.0.1", self._port)) as upstream, upstream.makefile("rb") as stream:
            upstream.sendall(request)
            head = self._head(stream)
            reply = head + stream.read(self._length(head))
        if where == "after":
            return False
        connection.sendall(reply[: len(reply) // 2] if where == "middle" else reply)
        return where != "middle"


class StandIn(http.server.ThreadingHTTPServer):
    """Answers `/api/catalog/entities/by-query` as the documentation of Backstage says, page by page with cursors."""

    daemon_threads = True

    def __init__(self, entities: List[Dict[str, Any]], token: Optional[str] = None) -> None:
        super().__init__(("127.0.0.1", 0), _StandInHandler)
        self.entities, self.token, self.requests = entities, token, 0
        self.broken_at: Optional[int] = None
        self.address = f"http://127.0.0.1:{self.server_address[1]}"
        threading.Thread(target=self.serve_forever, daemon=True).start()

    def stop(self) -> None:
        """Answers no more."""
        self.shutdown()
        self.server_close()


class _StandInHandler(http.server.BaseHTTPRequestHandler):
    protocol_version = "HTTP/1.1"
    server: StandIn

    def log_message(self, *words: Any) -> None:
        pass

    def do_GET(self) -> None:
        self.server.requests += 1
        if self.server.requests == self.server.broken_at:
            self.close_connection = True
            return
        parts = urlsplit(self.path)
        if self.server.token and self.headers.get("Authorization") != f"Bearer {self.server.token}":
            self._send(401, {"error": {"name": "AuthenticationError", "message": "Missing credentials"}})
        elif parts.path != "/api/catalog/entities/by-query":
            self._send(404, {"error": {"name": "NotFoundError", "message": ""}})
        else:
            self._send(200, self._page(parse_qs(parts.query)))

    def _page(self, query: Dict[str, List[str]]) -> Dict[str, Any]:
        start = int(base64.b64decode(query["cursor"][0])) if "cursor" in query else 0
        end = start + int(query.get("limit", ["20"])[0])
        following = {"nextCursor": base64.b64encode(str(end).encode()).decode()} if end < len(self.server.entities) else {}
        return {"items": self.server.entities[start:end], "totalItems": len(self.server.entities), "pageInfo": following}

    def _send(self, code: int, body: Any) -> None:
        data = json.dumps(body).encode()
        self.send_response(code)
        self.send_header("Content-Type", "application/json; charset=utf-8")
        self.send_header("Content-Length", str(len(data)))
        self.end_headers()
        self.wfile.write(data)


def as_backstage_has_it(given: Dict[str, Any], number: int) -> Dict[str, Any]:
    """A descriptor as Backstage answers it: with uid, etag, relations and status."""
    metadata = {"namespace": "default", **given["metadata"], "uid": f"0000-{number}", "etag": f"{number:x}"}
    annotations = {**metadata.get("annotations", {}), "backstage.io/managed-by-location": "url:https://github.com/acme/shop/blob/main/catalog-info.yaml"}
    relations = [{"type": "ownedBy", "targetRef": "group:default/team-a", "target": {"kind": "group", "namespace": "default", "name": "team-a"}}]
    return {**given, "metadata": {**metadata, "annotations": annotations}, "relations": relations, "status": {"items": []}}


@contextlib.contextmanager
def backstage(entities: List[Dict[str, Any]], token: Optional[str] = None) -> Iterator[StandIn]:
    """A Backstage with these entities for as long as the block runs."""
    stand_in = StandIn(entities, token)
    try:
        yield stand_in
    finally:
        stand_in.stop()
