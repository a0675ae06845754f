"""What a git checkout tells: its remote and branch, and the addresses that a file has on the host of the remote."""

from __future__ import annotations

import os
import re
import subprocess
from dataclasses import dataclass
from pathlib import Path
from typing import Optional, Tuple
from urllib.parse import quote, urlsplit

FORGES = ("github", "gitlab", "gitea", "bitbucket", "azure")
_BRANCH_IN_CI = ("GITHUB_HEAD_REF", "GITHUB_REF_NAME", "CI_COMMIT_BRANCH", "BITBUCKET_BRANCH", "BUILD_SOURCEBRANCHNAME")


@dataclass(frozen=True)
class Checkout:
    """A folder that git keeps; `remote` is the address of its pages, `forge` says how these are laid out."""

    top: Path
    remote: Optional[str]
    branch: Optional[str]
    forge: Optional[str]

    def file_address(self, path: Path) -> Optional[str]:
        """The page that shows the file."""
        return self._address(path, {
            "github": "{remote}/blob/{branch}/{path}",
            "gitlab": "{remote}/-/blob/{branch}/{path}",
            "gitea": "{remote}/src/branch/{branch}/{path}",
            "bitbucket": "{remote}/src/{branch}/{path}",
            "azure": "{remote}?path=/{path}&version=GB{branch}",
        })

    def folder_address(self, path: Path) -> Optional[str]:
        """The page of the folder that the file is in, with a slash at its end."""
        folder = path.parent
        address = self._address(folder, {
            "github": "{remote}/tree/{branch}/{path}",
            "gitlab": "{remote}/-/tree/{branch}/{path}",
            "gitea": "{remote}/src/branch/{branch}/{path}",
            "bitbucket": "{remote}/src/{branch}/{path}",
            "azure": "{remote}?path=/{path}&version=GB{branch}",
        })
        if address is None or self.forge == "azure":
            return address
        return address.rstrip("/") + "/"

    def edit_address(self, path: Path) -> Optional[str]:
        """The page on which the file is edited."""
        return self._address(path, {
            "github": "{remote}/edit/{branch}/{path}",
            "gitlab": "{remote}/-/edit/{branch}/{path}",
            "gitea": "{remote}/_edit/{branch}/{path}",
            "bitbucket": "{remote}/src/{branch}/{path}?mode=edit&at={branch}",
            "azure": "{remote}?path=/{path}&version=GB{branch}&_a=contents",
        })

    def local_path(self, address: str) -> Optional[Path]:
        """The file of this checkout that the address shows, if it shows one of this branch."""
        shown = self.file_address(self.top)
        if shown is None or self.forge == "azure":
            return None
        for prefix in {shown, shown.replace("/blob/", "/tree/")}:
            if address.startswith(prefix.rstrip("/") + "/"):
                return self.top / address[len(prefix.rstrip("/")) + 1:]
        return None

    def _address(self, path: Path, layouts: dict) -> Optional[str]:
        if not (self.remote and self.branch and self.forge):
            return None
        inside = Path(os.path.relpath(path, self.top)).as_posix()
        return layouts[self.forge].format(
            remote=self.remote, branch=quote(self.branch), path="" if inside == "." else quote(inside))


def checkout_of(folder: Path, forge: Optional[str] = None, branch: Optional[str] = None) -> Optional[Checkout]:
    """The checkout that the folder is in; `forge` and `branch` are what was given on the command line."""
    top = _git(folder, "rev-parse", "--show-toplevel")
    if top is None:
        return None
    names = (_git(folder, "remote") or "").split()
    name = "origin" if "origin" in names else next(iter(names), None)
    remote = page_of_remote(_git(folder, "remote", "get-url", name) or "") if name else None
    return Checkout(Path(os.path.realpath(top)), remote, branch or _branch(folder), forge or _forge(remote))


def _git(folder: Path, *words: str) -> Optional[str]:
    try:
        done = subprocess.run(["git", "-C", str(folder), *words], capture_output=True, text=True, check=False)
    except OSError:
        return None
    return done.stdout.strip() or None if done.returncode == 0 else None


def _branch(folder: Path) -> Optional[str]:
    """The branch; where none is checked out, as on a build server, what that says, or else the commit."""
    named = _git(folder, "symbolic-ref", "-q", "--short", "HEAD")
    return named or next((os.environ[name] for name in _BRANCH_IN_CI if os.environ.get(name)), None) or _git(folder, "rev-parse", "HEAD")


def page_of_remote(remote: str) -> Optional[str]:
    """The https address of a remote's pages, without the name and password that it may have."""
    short = re.fullmatch(r"(?:[^@/:]+@)?([A-Za-z0-9.-]+\.[A-Za-z0-9-]+):(?!/)(.+)", remote)
    if short:
        host, path = short[1], short[2]
    else:
        parts = urlsplit(remote)
        if parts.scheme not in ("http", "https", "ssh", "git") or not parts.hostname:
            return None
        port = f":{parts.port}" if parts.port and parts.scheme.startswith("http") else ""
        host, path = parts.hostname + port, parts.path
    if host == "ssh.dev.azure.com":
        host, path = "dev.azure.com", re.sub(r"^/?v3/([^/]+)/([^/]+)/", r"\1/\2/_git/", path)
    path = path.strip("/")
    return f"https://{host}/{path[:-4] if path.endswith('.git') else path}"


def _forge(remote: Optional[str]) -> Optional[str]:
    host = urlsplit(remote or "").hostname or ""
    if "azure" in host or host.endswith("visualstudio.com"):
        return "azure"
    if host == "codeberg.org" or "forgejo" in host:
        return "gitea"
    return next((forge for forge in FORGES if forge in host), None)


def repository_parts(remote: str) -> Tuple[str, ...]:
    """The pieces of the repository's name, as `acme` and `shop`."""
    return tuple(piece for piece in urlsplit(remote).path.split("/") if piece and piece != "_git")
