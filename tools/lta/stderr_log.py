"""Lines on standard error. Where that is closed or full nobody can read them, and the work goes on."""

from __future__ import annotations

import contextlib
import sys
from typing import TextIO


def write_to(stream: TextIO | None, text: str) -> None:
    """Writes and flushes a text, and does nothing if it cannot be written."""
    if stream is not None:
        with contextlib.suppress(OSError, ValueError):
            stream.write(text)
            stream.flush()


def write_stderr(text: str) -> None:
    write_to(sys.stderr, text)


def write_to_both(text: str) -> None:
    """Writes a text to sys.stderr, and also to the process's own standard error if a test runner has put a buffer in
    its place. Else nobody would see, until the test ends, why it waits for minutes.
    """
    write_stderr(text)
    try:
        sys.stderr.fileno()
    except (AttributeError, OSError, ValueError):
        write_to(sys.__stderr__, text)
