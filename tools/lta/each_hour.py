"""What a command asks of every hour that its files name, one after the other, and what it says of them at the end."""

from __future__ import annotations

import argparse
from collections.abc import Callable, Iterable, Iterator, Sequence
from dataclasses import dataclass, replace
from typing import Any, Protocol, TypeVar

from . import amounts, explain_text, library, schema
from .causes import Disagreement, explain
from .inputs import DUMP, JOINED, PROPOSAL, TEXT, Gathering, HourFiles, Input, InputError, printable
from .progress import Progress
from .results import LEFT_OUT, Result
from .writing import put, put_now

MOST_NAMED = 3  # of the files that one line is about

Complain = Callable[[object], None]


class Answered(Protocol):
    """What notices and the status need: the hour's name, what became of its family list, the files that were read, and
    why it could not be read.
    """

    @property
    def name(self) -> str: ...
    @property
    def families(self) -> str: ...
    @property
    def inputs(self) -> tuple[Any, ...]: ...
    @property
    def error(self) -> str: ...


Answer = TypeVar("Answer", bound=Answered)


class Hours:
    """The hours of a command line."""

    def __init__(self, options: argparse.Namespace, fellows: Sequence[str] = (PROPOSAL, DUMP)) -> None:
        self.gathering = Gathering(
            options.way, getattr(options, "no_families", False), options.ignore or (), fellows=fellows
        )
        self.sources = self.gathering.hours(options.files)
        if getattr(options, "family_list", None) is not None:
            self.sources = [with_list(self.sources, options.family_list)]

    def asked(
        self,
        ask: Callable[[Input, HourFiles], Answer],
        failed: Callable[[str, str], Answer],
        complain: Complain,
        for_reader: bool = True,
        with_progress: bool = True,
    ) -> Iterator[Answer]:
        """The answer on every hour, as soon as it is found. If one cannot be read, complain is told and failed makes
        the answer. If none can, there is nothing for a reader: the last fault ends the command.
        """
        faults = 0
        progress = Progress(f"{{:,}} of {len(self.sources):,} hours answered", with_progress)
        try:
            for done, source in enumerate(self.sources):
                progress.step(done)
                try:
                    answer = ask(source, source.read())
                except (InputError, Disagreement) as fault:
                    faults += 1
                    if for_reader and faults == len(self.sources):
                        raise
                    progress.end()
                    complain(fault)
                    answer = failed(source.name, str(fault))
                yield answer
        finally:
            progress.end()

    def notices(self, answers: Iterable[Answered]) -> Iterator[str]:
        """What nobody named and was used all the same, and what was there and was not used: a line for each kind."""
        read: set[str] = set()
        answered: set[str] = set()
        without: list[str] = []
        cut: list[str] = []
        for answer in answers:
            read.update(one.file for one in answer.inputs)
            if not answer.error:
                answered.add(answer.name)
            cut += [one.file for one in answer.inputs if one.cut]
            if answer.families == LEFT_OUT:
                without.append(answer.name)
        used = (one for one in self.sources if one.beside and not one.leave_out and one.name in answered)
        beside = [one.families for one in used if one.families]
        if beside:
            yield f"used {lists_of(len(beside), 'next to')}: {some(beside)}; --no-families leaves them out"
        if without:
            yield f"left out {lists_of(len(without), 'of')}: {some(without)}"
        if cut:
            yield cut_words(cut)
        passed = [path for path in self.gathering.passed if path not in read]
        if passed:
            count = "1 file that is" if len(passed) == 1 else f"{len(passed):,} files that are"
            yield f"passed over {count} no hour's: {some(passed)}; --ignore GLOB leaves this unsaid"


def cut_words(cut: Sequence[str]) -> str:
    """What is said of files that were not read to their end."""
    return f"read only the beginning of {amounts.counted(len(cut), 'file')} too long to be legal: {some(cut)}"


def lists_of(count: int, where: str) -> str:
    return f"the family list{'' if count == 1 else 's'} {where} {amounts.counted(count, 'hour')}"


def with_list(sources: Sequence[Input], families: str) -> Input:
    """The one hour that is named, with the family list of --families."""
    if len(sources) != 1:
        raise InputError(families, f"--families names the list of one hour, and {len(sources):,} hours are named")
    if sources[0].kind == TEXT:
        raise InputError(families, "--families does not go with a text, which has its list in itself")
    return replace(sources[0], families=families, beside=False)


def some(names: Sequence[str]) -> str:
    """The first few of some names."""
    more = f" and {len(names) - MOST_NAMED:,} more" if len(names) > MOST_NAMED else ""
    return ", ".join(names[:MOST_NAMED]) + more


# Written, each answer as soon as it is there.


def put_texts(answers: Iterable[Answer], as_text: Callable[[Answer], str], several: bool) -> None:
    """Prints the text of each answer. Where several hours were asked for, each stands under its name."""
    blank = ""
    for answer in answers:
        if not answer.error:
            head = f"{blank}== {printable(answer.name)}\n" if several else ""
            put_now(head + as_text(answer))
            blank = "\n"


def put_records(form: str, record_type: str, records: Iterable[schema.Record]) -> None:
    """Prints records of one type. JSON is one array, and is printed when all are there."""
    if form == "json":
        put(schema.json_text(list(records)))
        return
    if form == "csv":
        put_now(schema.csv_header(record_type))
    for record in records:
        put_now(schema.json_line(record) if form == "jsonl" else schema.csv_rows(record))


# lta explain.


@dataclass(frozen=True)
class Explained(Result):
    """An hour as judged, and all that lta explain says of it."""

    text: str = ""


def ask_explained(source: Input, read: HourFiles) -> Explained:
    files, families = (read.case, read.proposal), read.families
    judgement = library.judge(*files, families)
    found = explain(*files, judgement, families=families)
    text = explain_text.full_text(*files, judgement, found, source.kind == JOINED, families)
    return Explained(source.name, judgement, "", read.list_use, inputs=read.inputs, text=text)
