"""Files that a script writes of a table. Its command writes them, and a test holds them to what it would write."""

from __future__ import annotations

import pathlib
import sys
from typing import Callable, Mapping, Optional

# What each file has.
Files = Mapping[pathlib.Path, Callable[[], str]]


def outdated(files: Files) -> list[str]:
    """The names of the files that are not there, or not as they would be written."""
    return [
        path.name for path, made in files.items() if not path.is_file() or path.read_text(encoding="utf-8") != made()
    ]


def run(files: Files, usage: Optional[str], arguments: list[str]) -> int:
    """The command: it takes no argument, and its status is 2 if it is given one."""
    if arguments:
        sys.stderr.write(usage or "")
        return 2
    for path, made in files.items():
        path.write_text(made(), encoding="utf-8")
    return 0
