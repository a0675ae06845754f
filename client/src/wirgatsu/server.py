"""Speaks HTTP to a server: one connection, which is opened anew where it breaks."""

from __future__ import annotations

import http.client
import json
import socket
import ssl
import time
from dataclasses import dataclass
from typing import Any, Callable, Dict, Iterator, List, Optional, Tuple
from urllib.parse import quote, urlencode, urlsplit

from .errors import ClientError, NoServerError, RefusedError, WordsError

TRIES = 5
PATIENCE = 600.0
PAGE = 1000
Pairs = List[Tuple[str, str]]


@dataclass(frozen=True)
class Reply:
    """What was answered, and on which try."""

    code: int
    body: bytes
    tries: int

    def json(self) -> Any:
        """The body as JSON; nothing where there is none."""
        return json.loads(self.body) if self.body else None


class Connection:
    """Requests to one address. A request that breaks off is made again, so each must be one that may come twice."""

    def __init__(self, address: str, token: Optional[str] = None, patience: float = PATIENCE) -> None:
        parts = urlsplit(address if "://" in address else f"http://{address}")
        if parts.scheme not in ("http", "https") or not parts.hostname:
            raise WordsError(f"'{address}' is no address of a server, as http://127.0.0.1:8391")
        self.address = f"{parts.scheme}://{parts.netloc.rpartition('@')[2]}{parts.path.rstrip('/')}"
        self._secure = parts.scheme == "https"
        self._host, self._port, self._prefix = parts.hostname, parts.port, parts.path.rstrip("/")
        self._token = token
        self._patience = patience
        self._open: Optional[http.client.HTTPConnection] = None

    def close(self) -> None:
        """Ends the connection, so that the server can serve another one; the next request opens one anew."""
        if self._open is not None:
            self._open.close()
            self._open = None

    def ask(self, method: str, path: str, query: Optional[Pairs] = None, body: Optional[bytes] = None, kind: str = "application/json") -> Reply:
        """Makes a request until it is answered; NoServerError where nobody answers."""
        target = self._prefix + path + ("?" + urlencode(query, safe=":/,=", quote_via=quote) if query else "")
        fault: Optional[Exception] = None
        for count in range(1, TRIES + 1):
            if fault is not None:
                time.sleep(0.05 * 3 ** (count - 2))
            try:
                return self._once(method, target, body, kind, count)
            except ssl.SSLError as error:
                raise NoServerError(f"no safe connection to {self.address} can be made: {error.reason or error}") from None
            except (OSError, http.client.HTTPException) as error:
                self.close()
                fault = error
                if isinstance(error, (ConnectionRefusedError, socket.gaierror, socket.timeout)):
                    break
        raise NoServerError(f"no server answers at {self.address}: {_words(fault)}")

    def _once(self, method: str, target: str, body: Optional[bytes], kind: str, count: int) -> Reply:
        if self._open is None:
            made = http.client.HTTPSConnection if self._secure else http.client.HTTPConnection
            self._open = made(self._host, self._port, timeout=self._patience)
        headers = {"Accept": "application/json"}
        if body is not None:
            headers["Content-Type"] = kind
        if self._token:
            headers["Authorization"] = f"Bearer {self._token}"
        self._open.request(method, target, body, headers)
        answer = self._open.getresponse()
        reply = Reply(answer.status, _whole_body(answer), count)
        if answer.will_close:
            self.close()
        return reply


def _whole_body(answer: http.client.HTTPResponse) -> bytes:
    """The body. An answer that doesn't say where it ends is one whose head broke off, unless it ends with the connection."""
    ends = answer.length is not None or answer.chunked or answer.version == 10 or answer.getheader("Connection", "").lower() == "close"
    if not ends:
        raise http.client.IncompleteRead(b"")
    return answer.read()


def _words(fault: Optional[Exception]) -> str:
    if isinstance(fault, socket.timeout):
        return "it takes too long"
    if isinstance(fault, OSError) and fault.strerror:
        return fault.strerror
    return "the connection breaks off"


class Server:
    """The routes of a catalogue."""

    def __init__(self, address: str, token: Optional[str] = None, patience: float = PATIENCE) -> None:
        self.connection = Connection(address, token, patience)
        self.address = self.connection.address

    def __enter__(self) -> Server:
        return self

    def __exit__(self, *fault: object) -> None:
        self.close()

    def close(self) -> None:
        """Ends the connection until the next request."""
        self.connection.close()

    def _ask(self, method: str, path: str, query: Optional[Pairs] = None, body: Optional[bytes] = None) -> Reply:
        reply = self.connection.ask(method, path, query, body)
        if reply.code >= 300:
            raise refusal(self.address, reply)
        return reply

    def _get(self, path: str, query: Optional[Pairs] = None) -> Any:
        return _parsed(self.address, self._ask("GET", path, query))

    def documents(self, query: Pairs, count: Callable[[int], None] = lambda total: None) -> Iterator[Dict[str, Any]]:
        """All documents that a query matches, page by page; `count` is told how many there are."""
        cursor: Pairs = []
        while True:
            page = self._get("/entities/by-query", query + [("limit", str(PAGE))] + cursor)
            count(page["totalItems"])
            yield from page["items"]
            following = page["pageInfo"].get("nextCursor")
            if following is None:
                return
            cursor = [("cursor", following)]

    def document(self, kind: str, namespace: str, name: str) -> Optional[Dict[str, Any]]:
        """The document of an entity; nothing where there is none."""
        try:
            return self._get("/entities/by-name/" + "/".join(quote(part, safe="") for part in (kind, namespace, name)))
        except RefusedError as refused:
            if refused.code == 404:
                return None
            raise

    def documents_of(self, references: List[str]) -> List[Optional[Dict[str, Any]]]:
        """The documents of these references, with nothing for each that has none."""
        found: List[Optional[Dict[str, Any]]] = []
        for start in range(0, len(references), PAGE):
            body = json.dumps({"entityRefs": references[start:start + PAGE]}).encode()
            found += _parsed(self.address, self._ask("POST", "/entities/by-refs", body=body))["items"]
        return found

    def failed(self) -> List[Dict[str, Any]]:
        """The entities whose last processing has errors."""
        return self._get("/failed")

    def conflicts(self) -> List[Dict[str, Any]]:
        """The offers that wait while another one holds their reference."""
        return self._get("/conflicts")

    def orphans(self) -> List[str]:
        """The references that nothing gives any more."""
        return self._get("/orphans")

    def changes(self, since: Optional[str]) -> Dict[str, Any]:
        """What changed since a place, or all documents."""
        return self._get("/changes", [("since", since)] if since else None)

    def settle(self) -> Dict[str, int]:
        """Has all processed that is due."""
        return _parsed(self.address, self._ask("POST", "/settle", body=b""))

    def mutate(self, provider: str, form: str, body: bytes) -> Tuple[bool, bool]:
        """Gives a `full` or `delta`: whether the serial was used before, and whether it was sent more than once."""
        reply = self._ask("POST", f"/providers/{quote(provider)}/{form}", body=body)
        return _parsed(self.address, reply)["again"], reply.tries > 1

    def last_serial(self, provider: str) -> int:
        """The provider's last serial. A provider that never gave anything has 1 afterwards, with an empty `delta`."""
        try:
            self.mutate(provider, "delta", b'{"serial":1,"added":[],"removed":[]}')
        except RefusedError as refused:
            word, _, number = refused.rule.partition(" ")
            if refused.code == 409 and word == "old_serial" and number.isdigit():
                return int(number)
            raise
        return 1

    def put_text(self, name: str, text: bytes) -> None:
        """Puts a text on the shelf."""
        self._ask("PUT", "/shelf", [("name", name)], text)

    def drop_text(self, name: str) -> None:
        """Takes a text from the shelf, if it is there."""
        reply = self.connection.ask("DELETE", "/shelf", [("name", name)])
        if reply.code >= 300 and reply.code != 404:
            raise refusal(self.address, reply)


def _parsed(address: str, reply: Reply) -> Any:
    try:
        return reply.json()
    except ValueError:
        raise ClientError(f"what answers at {address} is no catalogue: its answer is no JSON") from None


def refusal(address: str, reply: Reply) -> RefusedError:
    """What a status that is no success means, in one sentence."""
    try:
        rule = str(reply.json()["error"]["message"])
    except (ValueError, KeyError, TypeError):
        rule = ""
    return RefusedError(_sentence(address, reply.code, rule), reply.code, rule)


def _sentence(address: str, code: int, rule: str) -> str:
    if code == 401:
        return f"{address} wants a token that it knows (401)"
    if code == 403:
        return f"{address} doesn't allow this with the token that was sent (403)"
    if rule.startswith("too_large "):
        return f"the catalogue would hold {int(rule.split()[1]):,} bytes of input, which is more than it takes (413)"
    known = {
        413: "the body of the request is larger than the server takes; give a smaller --body-limit",
        503: "the server couldn't keep the change on its disk",
        507: "the server lacks memory for this",
    }
    return f"{address} answers {code}: {known.get(code) or rule or http.client.responses.get(code, 'an unknown status')}"
