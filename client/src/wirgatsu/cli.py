"""The command line."""

from __future__ import annotations

import argparse
import io
import os
import signal
import sys
from typing import Any, Optional, Sequence

from . import __version__
from .errors import REFUSED, ClientError

DEFAULT_SERVER = "http://127.0.0.1:8391"
_STATUSES = """statuses:
  0  all went well
  1  something was refused, failed, or isn't there
  2  the command line asks for what can't be done
  3  no server answers"""


def main(words: Optional[Sequence[str]] = None) -> int:
    """Runs a command, and gives the status to end with."""
    arguments = _parser().parse_args(words)
    if isinstance(sys.stdout, io.TextIOWrapper):
        # a terminal without Unicode gets marks for what it lacks
        sys.stdout.reconfigure(errors="replace")
    try:
        # only here, so that help needs nothing
        from .commands import COMMANDS
        return COMMANDS[arguments.command](arguments)
    except ModuleNotFoundError as error:
        if error.name != "yaml":
            raise
        print("wirgatsu: PyYAML is needed, which `pip install PyYAML` brings", file=sys.stderr)
        return REFUSED
    except ClientError as error:
        print(f"wirgatsu: {error}", file=sys.stderr)
        return error.status
    except BrokenPipeError:
        # who read the output went away; nothing more can be written, not at the exit either
        os.dup2(os.open(os.devnull, os.O_WRONLY), sys.stdout.fileno())
        return REFUSED
    except OSError as error:
        print(f"wirgatsu: {error.filename or 'this machine'}: {error.strerror}", file=sys.stderr)
        return REFUSED
    except KeyboardInterrupt:
        print("", file=sys.stderr)
        return 128 + signal.SIGINT


def _parser() -> argparse.ArgumentParser:
    parser = argparse.ArgumentParser(
        prog="wirgatsu", description="The client of the Wirgatsu software catalogue.",
        epilog=_STATUSES, formatter_class=argparse.RawDescriptionHelpFormatter)
    parser.add_argument("--version", action="version", version=f"wirgatsu {__version__}")
    commands = parser.add_subparsers(dest="command", metavar="COMMAND", required=True)
    for add in (_add_push, _add_import, _add_validate, _add_get, _add_list, _add_tree, _add_owners, _add_owned, _add_watch, _add_status, _add_export):
        add(commands)
    return parser


def _command(commands: Any, name: str, text: str, server: bool = True) -> argparse.ArgumentParser:
    command = commands.add_parser(name, help=text, description=text, epilog=_STATUSES, formatter_class=argparse.RawDescriptionHelpFormatter)
    if server:
        command.add_argument("--server", metavar="URL", default=os.environ.get("WIRGATSU_SERVER", DEFAULT_SERVER),
                             help="the catalogue (default: WIRGATSU_SERVER, or %s); WIRGATSU_TOKEN has the token" % DEFAULT_SERVER)
    return command


def _add_reading_options(command: argparse.ArgumentParser) -> None:
    command.add_argument("--numbers-as-text", action="store_true", help="take a number with a fraction as the text that it is written as")
    command.add_argument("--skip-kind", metavar="KIND", action="append", default=[], help="leave entities of this kind out without a word (may come again)")


def _add_file_options(command: argparse.ArgumentParser) -> None:
    command.add_argument("--glob", metavar="PATTERN", action="append", default=[],
                         help="read the files that match, not catalog-info.yaml (may come again; ** is any folder)")
    command.add_argument("--exclude", metavar="PATTERN", action="append", default=[],
                         help="pass over files and folders that match, as skeleton (may come again)")
    command.add_argument("--as-is", action="store_true", help="set no annotations and follow no Locations")
    command.add_argument("--branch", help="the branch that annotations name (default: the checkout's)")
    command.add_argument("--forge", choices=("github", "gitlab", "gitea", "bitbucket", "azure"),
        help="how the remote's pages are laid out (default: by its name)")


def _add_giving_options(command: argparse.ArgumentParser) -> None:
    command.add_argument("--provider", metavar="NAME", help="whose entities these are (default: the repository, folder or host)")
    command.add_argument("--dry-run", action="store_true", help="show what would change, and change nothing")
    command.add_argument("--yes", action="store_true", help="don't ask")
    command.add_argument("--no-wait", action="store_true", help="don't wait until the catalogue has processed what it was given")
    command.add_argument("--verbose", action="store_true", help="show each change, however many there are")
    command.add_argument("--body-limit", metavar="BYTES", type=int, default=4_194_304, help="the largest body that the server takes (default: 4194304)")


def _add_output(command: argparse.ArgumentParser) -> None:
    command.add_argument("--output", "-o", choices=("table", "yaml", "json", "name"), default="table", help="how it is shown (default: table)")


def _add_filter(command: argparse.ArgumentParser) -> None:
    command.add_argument("--filter", metavar="FILTER", action="append", default=[],
                         help="KEY=VALUE conditions, parted by commas, as kind=component,spec.type=service (may come again: alternatives)")


def _add_push(commands: Any) -> None:
    command = _command(commands, "push", "Bring the catalog-info.yaml files below folders into the catalogue.")
    command.add_argument("paths", metavar="DIR", nargs="+", help="a folder or a file")
    command.add_argument("--prune", action="store_true", help="remove what the provider gave before and no file has any more")
    command.add_argument("--shelf", action="store_true", help="put the files as texts on the shelf, for the catalogue to process")
    for add in (_add_giving_options, _add_reading_options, _add_file_options):
        add(command)


def _add_import(commands: Any) -> None:
    command = _command(commands, "import", "Bring the entities of a running Backstage into the catalogue.")
    command.add_argument("url", metavar="URL", help="the address of Backstage's backend, as https://backstage.example.com")
    command.add_argument("--token-env", metavar="NAME", help="the variable that has Backstage's token")
    for add in (_add_giving_options, _add_reading_options):
        add(command)


def _add_validate(commands: Any) -> None:
    command = _command(commands, "validate", "Say what of these files the catalogue would refuse, with file, line and column.", server=False)
    command.add_argument("paths", metavar="FILE", nargs="+", help="a file, or a folder with catalog-info.yaml files")
    for add in (_add_reading_options, _add_file_options):
        add(command)


def _add_get(commands: Any) -> None:
    command = _command(commands, "get", "Show one entity.")
    command.add_argument("reference", metavar="REF", help="as component:web, or web where nothing else has that name")
    _add_output(command)


def _add_list(commands: Any) -> None:
    command = _command(commands, "list", "Show all entities that a filter matches.")
    _add_filter(command)
    _add_output(command)


def _add_tree(commands: Any) -> None:
    command = _command(commands, "tree", "Draw what a domain, a system or a group has.")
    command.add_argument("reference", metavar="REF")


def _add_owners(commands: Any) -> None:
    command = _command(commands, "owners", "Show who owns an entity.")
    command.add_argument("reference", metavar="REF")


def _add_owned(commands: Any) -> None:
    command = _command(commands, "owned", "Show what a group owns.")
    command.add_argument("reference", metavar="GROUP", help="as group:team-a, team-a, or user:ann")
    command.add_argument("--with-children", action="store_true", help="and what the groups below it own")
    _add_output(command)


def _add_watch(commands: Any) -> None:
    command = _command(commands, "watch", "Show what changes, as it changes.")
    _add_filter(command)
    command.add_argument("--interval", metavar="SECONDS", type=float, default=2.0, help="how often to ask (default: 2)")
    command.add_argument("--count", metavar="N", type=int, help="end after so many changes")
    command.add_argument("--output", "-o", choices=("table", "json"), default="table", help="lines for people, or a JSON object a line")


def _add_status(commands: Any) -> None:
    _command(commands, "status", "Show what failed, what is in conflict, and what nothing gives any more.")


def _add_export(commands: Any) -> None:
    command = _command(commands, "export", "Write all entities as YAML that `push --as-is` takes back.")
    _add_filter(command)
    command.add_argument("--file", "-f", metavar="FILE", help="where to (default: standard output)")
