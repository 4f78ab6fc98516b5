"""How far a long run is: one line on standard error that is written over, only where that is a terminal."""

from __future__ import annotations

import sys
import time

from .stderr_log import write_stderr

# Seconds before the first line, and between two.
PATIENCE, PAUSE = 0.5, 0.1


class Progress:
    """Counts up. The words have a {:,} for the count."""

    def __init__(self, words: str, wanted: bool = True) -> None:
        self.words, self.began, self.shown = words, time.monotonic(), 0.0
        self.wanted = wanted and sys.stderr is not None and sys.stderr.isatty()

    def step(self, done: int) -> None:
        if not self.wanted:
            return
        now = time.monotonic()
        if now - self.began > PATIENCE and now - self.shown > PAUSE:
            self.shown = now
            write_stderr("\r" + self.words.format(done))

    def end(self) -> None:
        """Takes the line away."""
        if self.shown:
            write_stderr("\r\x1b[K")
