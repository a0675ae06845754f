"""What each command does with what stands on its command line."""

from __future__ import annotations

import argparse
import os
from typing import Callable, Dict, Optional

from . import push, show
from .backstage import Backstage, default_provider, left_out_by_kind, read_backstage
from .errors import OK, REFUSED, ClientError, WordsError
from .export import export
from .finding import USUAL_NAMES, Finder
from .names import is_name
from .push import Options, Push
from .reading import FileReader, Reading, Settings
from .server import Server
from .shelf import ShelfReader, push_to_shelf
from .status import status
from .terminal import Progress, counted, print_problems, say
from .watching import watch


def _server(arguments: argparse.Namespace) -> Server:
    return Server(arguments.server, os.environ.get("WIRGATSU_TOKEN") or None)


def _reader(arguments: argparse.Namespace, provider: str, finder: Finder) -> FileReader:
    patterns = tuple(arguments.glob) or USUAL_NAMES
    settings = Settings(provider, patterns, tuple(arguments.exclude), arguments.numbers_as_text, arguments.as_is, frozenset(arguments.skip_kind))
    return ShelfReader(settings, finder) if getattr(arguments, "shelf", False) else FileReader(settings, finder)


def _read(arguments: argparse.Namespace, reader: FileReader) -> None:
    patterns = reader.settings.patterns
    files = reader.finder.roots(arguments.paths, patterns, reader.settings.excluded)
    if not files:
        raise ClientError(f"there is no {' or '.join(patterns)} below {', '.join(arguments.paths)}")
    with Progress("reading files", len(files)) as progress:
        reader.read(files, progress.at)


def _options(arguments: argparse.Namespace, provider: str, prune: bool) -> Options:
    if not is_name(provider):
        raise WordsError(f"'{provider}' is no name of a provider")
    return Options(provider, prune, arguments.dry_run, arguments.yes, not arguments.no_wait, arguments.verbose, arguments.body_limit)


def _print_reading(reading: Reading) -> None:
    print_problems(f"{warning.place}: warning: {warning.message}" for warning in reading.warnings)
    print_problems(reading.problems)


def push_command(arguments: argparse.Namespace) -> int:
    """Brings files into the catalogue."""
    finder = Finder(arguments.forge, arguments.branch)
    provider = arguments.provider or push.default_provider(arguments.paths, finder)
    options = _options(arguments, provider, arguments.prune)
    reader = _reader(arguments, provider, finder)
    _read(arguments, reader)
    _print_reading(reader.reading)
    with _server(arguments) as server:
        return push_to_shelf(server, reader, options) if arguments.shelf else Push(server, reader.reading, options).run()


def import_command(arguments: argparse.Namespace) -> int:
    """Brings the entities of a Backstage into the catalogue."""
    token = _token(arguments.token_env)
    provider = arguments.provider or default_provider(arguments.url)
    options = _options(arguments, provider, prune=True)
    with Progress("reading Backstage") as progress:
        def step(done: int, total: int) -> None:
            progress.total = total
            progress.at(done)

        with Backstage(arguments.url, token) as backstage:
            reading = read_backstage(backstage, provider, arguments.numbers_as_text, frozenset(arguments.skip_kind), step)
    _print_reading(reading)
    if reading.problems:
        say(left_out_by_kind(reading))
    with _server(arguments) as server:
        return Push(server, reading, options).run()


def _token(name: Optional[str]) -> Optional[str]:
    if name is None:
        return None
    if not os.environ.get(name):
        raise WordsError(f"the variable {name} has no token")
    return os.environ[name]


def validate_command(arguments: argparse.Namespace) -> int:
    """Says what the catalogue would refuse of files."""
    reader = _reader(arguments, "validate", Finder(arguments.forge, arguments.branch))
    _read(arguments, reader)
    reading = reader.reading
    _print_reading(reading)
    if not reading.is_whole:
        say(f"{counted(len(reading.problems), 'problem')} in {counted(reading.files, 'file')}.")
        return REFUSED
    print(f"{counted(len(reading.entities), 'entity', 'entities')} in {counted(reading.files, 'file')} can be brought in.")
    return OK


def get_command(arguments: argparse.Namespace) -> int:
    """Shows one entity."""
    with _server(arguments) as server:
        return show.get(server, arguments.reference, arguments.output)


def list_command(arguments: argparse.Namespace) -> int:
    """Shows all entities that a filter matches."""
    with _server(arguments) as server:
        return show.list_entities(server, arguments.filter, arguments.output)


def tree_command(arguments: argparse.Namespace) -> int:
    """Draws what an entity has."""
    with _server(arguments) as server:
        return show.tree(server, arguments.reference)


def owners_command(arguments: argparse.Namespace) -> int:
    """Shows who owns an entity."""
    with _server(arguments) as server:
        return show.owners(server, arguments.reference)


def owned_command(arguments: argparse.Namespace) -> int:
    """Shows what a group or a user owns."""
    with _server(arguments) as server:
        return show.owned(server, arguments.reference, arguments.with_children, arguments.output)


def watch_command(arguments: argparse.Namespace) -> int:
    """Shows what changes."""
    with _server(arguments) as server:
        return watch(server, arguments.filter, arguments.interval, arguments.count, arguments.output)


def status_command(arguments: argparse.Namespace) -> int:
    """Shows what is wrong."""
    with _server(arguments) as server:
        return status(server)


def export_command(arguments: argparse.Namespace) -> int:
    """Writes all entities as YAML."""
    with _server(arguments) as server:
        return export(server, arguments.filter, arguments.file)


COMMANDS: Dict[str, Callable[[argparse.Namespace], int]] = {
    "push": push_command, "import": import_command, "validate": validate_command, "get": get_command, "list": list_command, "tree": tree_command,
    "owners": owners_command, "owned": owned_command, "watch": watch_command, "status": status_command, "export": export_command,
}
