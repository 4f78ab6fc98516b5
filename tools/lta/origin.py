"""Which build this is: its version, kit and commit, and the library that belongs to it.

The package stands in the repository, as tools/lta, or in a release, as lib/mbirukaze/lta. In the repository the library
is built of crates/, by tools/built.py. A release has its library, and its RELEASE.json says which that is.
"""

from __future__ import annotations

import functools
import hashlib
import json
import os
import pathlib
import re
import subprocess
from collections.abc import Sequence
from typing import Any

PACKAGE = pathlib.Path(__file__).resolve().parent
REPOSITORY = PACKAGE.parents[1]
IN_REPOSITORY = (REPOSITORY / "crates.txt").is_file()
PREFIX = PACKAGE.parents[2]
RELEASE = PREFIX / "share" / "mbirukaze" / "RELEASE.json"
HEADER = REPOSITORY / "include" / "lta_judgement.h"
UNKNOWN = "unknown"


class OriginError(Exception):
    """The files that say which build this is cannot be read; the message is one line."""


def sha256_of(path: str | os.PathLike[str]) -> str:
    return hashlib.sha256(pathlib.Path(path).read_bytes()).hexdigest()


@functools.lru_cache(maxsize=None)
def release() -> dict[str, Any]:
    """What RELEASE.json says of the release."""
    try:
        found: dict[str, Any] = json.loads(RELEASE.read_text(encoding="utf-8"))
        return found
    except (OSError, ValueError) as fault:
        why = getattr(fault, "strerror", None) or "it is no JSON"
        raise OriginError(f"{RELEASE}: {why}; install the release again") from None


def release_library() -> pathlib.Path:
    """The path of the release's shared object."""
    return PREFIX / str(release()["library"])


def marked(version: str, marks: Sequence[str]) -> str:
    """A version as the names of a release have it that was made against a refusal."""
    return f"{version}+{'.'.join(marks)}" if marks else version


@functools.lru_cache(maxsize=None)
def version() -> str:
    """The version: the header's, and of a release with its marks."""
    if not IN_REPOSITORY:
        return marked(release()["version"], release()["marks"])
    found = re.search(r'^#define LTA_VERSION "(.*)"$', HEADER.read_text(encoding="utf-8"), re.MULTILINE)
    if found is None:
        raise OriginError(f"{HEADER}: no LTA_VERSION")
    return found[1]


def kit() -> str:
    """The kit that proved the library."""
    return (REPOSITORY / "kit.txt").read_text(encoding="utf-8").strip() if IN_REPOSITORY else str(release()["kit"])


def git(*words: str) -> str | None:
    """What git says of the repository, and None where it does not know it. It is asked for another user too, and writes
    nothing: make install may be root's.
    """
    try:
        asked = ["git", "-C", str(REPOSITORY), "-c", f"safe.directory={REPOSITORY}", "--no-optional-locks", *words]
        done = subprocess.run(asked, stdin=subprocess.DEVNULL, capture_output=True, text=True, errors="replace")
    except OSError:
        return None
    return done.stdout.strip() if done.returncode == 0 else None


def is_checkout() -> bool:
    """Whether the repository is git's, and not only a folder of another one."""
    top = git("rev-parse", "--show-toplevel")
    return top is not None and pathlib.Path(top).resolve() == REPOSITORY


def is_dirty() -> bool:
    """Whether something here is not committed."""
    return git("status", "--porcelain", "--untracked-files=normal") != ""


def commit() -> str:
    """The commit, and of the repository whether something here is not committed."""
    if not IN_REPOSITORY:
        return str(release()["commit"])
    if not is_checkout():
        return UNKNOWN
    return f"{git('rev-parse', 'HEAD')}{', with changes' if is_dirty() else ''}"


def version_text(command: str, kind: str, sha256: str, belongs: bool) -> str:
    """What a command's --version prints: which build it is, and the hash of the library or program that it runs."""
    foreign = "" if belongs else ", which does not belong to this command"
    return f"{command} {version()}\n{kind} sha256 {sha256}{foreign}\nkit {kit()}\ncommit {commit()}\n"
