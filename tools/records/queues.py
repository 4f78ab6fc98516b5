"""The stored runs of the desk queue, letter q. After its name a record has the events of a run, which begins with an
empty queue. queue/events.txt has an event on each line: `post AREA HOUR`, `serve`, or `byte PLACE VALUE`, which changes
a byte to what no call would leave. A line `# NAME` opens a run. queue/answers.txt has the lines that are due: each
event, followed for a post by its number, and for a serve by number, index, area and hour. The second judge and the
library are compared with it too.
"""

from __future__ import annotations

import pathlib
import struct
from collections.abc import Iterator

from . import Record, text

QUEUE = pathlib.Path(__file__).resolve().parent.parent.parent / "queue"
EVENT = struct.Struct("<cII")


def stored_runs() -> dict[str, tuple[list[str], list[str]]]:
    """The events and the answers of each run by its name."""
    events, answers = ((QUEUE / name).read_text().splitlines() for name in ("events.txt", "answers.txt"))
    if len(events) != len(answers):
        raise ValueError(f"queue/events.txt has {len(events)} lines, and queue/answers.txt {len(answers)}")
    found: dict[str, tuple[list[str], list[str]]] = {}
    for event, answer in zip(events, answers):
        if event.startswith("# "):
            run_events, run_answers = found[event] = ([], [])
        else:
            run_events.append(event)
            run_answers.append(answer)
    return found


def event_bytes(event: str) -> bytes:
    word, *numbers = event.split()
    first, second = (*map(int, numbers), 0, 0)[:2]
    return EVENT.pack(word[:1].encode(), first, second)


def runs() -> Iterator[tuple[tuple[Record, ...], list[str]]]:
    for name, (events, answers) in stored_runs().items():
        record = Record(b"q", (b"".join(map(event_bytes, events)),))
        yield (text(f"{name}\n"), record), [name, *answers]
