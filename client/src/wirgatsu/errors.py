"""What ends a command, each with the status that the program ends with."""

from __future__ import annotations

OK = 0
REFUSED = 1
WORDS = 2
NO_SERVER = 3


class ClientError(Exception):
    """Ends a command. Its text is one sentence for the person who ran it."""

    status = REFUSED


class WordsError(ClientError):
    """The command line asks for what the client can't do."""

    status = WORDS


class NoServerError(ClientError):
    """No server answers at the address."""

    status = NO_SERVER


class RefusedError(ClientError):
    """A server answered with a status that is no success."""

    def __init__(self, sentence: str, code: int, rule: str) -> None:
        super().__init__(sentence)
        self.code = code
        self.rule = rule
