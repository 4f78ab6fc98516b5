"""Hours as files: one judged by its path, and what the command would judge in a folder."""

from __future__ import annotations

import os
from typing import Union

from . import library
from .inputs import Gathering, Input, InputError

Path = Union[str, "os.PathLike[str]"]


def one_hour(case: Path, proposal: Path | None = None) -> Input:
    """The hour that the command would judge: by one path a case with what has its name, a joined file or a text; by two
    a case and its proposal or dump. A family list of the case's name goes with it.
    """
    words = [os.fspath(path) for path in (case, proposal) if path is not None]
    found = Gathering("pairs" if proposal is not None else None).hours(words)
    if len(found) != 1:
        raise InputError(words[0], f"one hour is asked for, and {len(found)} are named")
    return found[0]


def judge_files(case: Path, proposal: Path | None = None) -> library.Judgement:
    """Has the library judge an hour by its paths. What cannot be read raises InputError."""
    return judge_input(one_hour(case, proposal))


def judge_input(source: Input) -> library.Judgement:
    """The same of one of a folder's hours."""
    read = source.read()
    return library.judge(read.case, read.proposal, read.families)


def hours(folder: Path) -> list[Input]:
    """What lta judge FOLDER would judge: each with its name, the paths that are paired and the path of its family list.
    One that cannot be read is there too, and says why when it is read.
    """
    name = os.fspath(folder)
    if not os.path.isdir(name):
        raise InputError(name, "no folder")
    return Gathering().hours([name])
