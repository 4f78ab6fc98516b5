"""The command line of lta. Whatever goes wrong is one line on standard error that names the file, and status 2."""

from __future__ import annotations

import argparse
import io
import os
import signal
import sys
import time
from collections.abc import Callable, Iterable, Iterator, Sequence
from typing import TYPE_CHECKING, Any, NoReturn, TextIO, TypeVar

from . import commands, each_hour, hour, inputs, judge_report, judging, library, rules, usage
from .causes import Disagreement
from .each_hour import Answered, Hours
from .inputs import (
    CASE,
    DUMP,
    FAMILIES,
    JOINED,
    PROPOSAL,
    TEXT,
    HourFiles,
    Input,
    InputError,
    hashed,
    kind_of,
    printable,
    read,
    text_hour,
    why_not,
)
from .results import Result
from .stderr_log import write_stderr
from .writing import (
    STANDARD_OUTPUT,
    Answer,
    Output,
    WriteError,
    answering,
    goes_to_terminal,
    put,
    refuse_outputs,
    write_output,
    write_outputs,
)

if TYPE_CHECKING:
    from . import exchanges
    from .columns import ColumnsResult
    from .dump_command import DumpResult

A = TypeVar("A", bound=Answered)


class Failure(Exception):
    """What ends a command: one line, and status 2."""


# What a command may end with that is no fault of its own.
FAULTS = (Failure, usage.UsageError, InputError, WriteError, Disagreement, library.BuildError, hour.OffsetError)


def complain(fault: object) -> None:
    write_stderr(f"lta: {printable(fault)}\n")


# Commands.


def read_from_standard_input(options: argparse.Namespace) -> None:
    """Without a file a joined hour is read. A terminal or an empty input is no hour that somebody meant to name."""
    options.files, options.way = [inputs.STDIN], None
    usage.refuse_standard_input_twice(options)
    stream = None if sys.stdin is None else sys.stdin.buffer
    if isinstance(stream, io.BufferedReader) and (stream.isatty() or not stream.peek(1)):
        what = "a terminal" if stream.isatty() else "empty"
        raise usage.UsageError(f"name a file: standard input is {what}; lta judge --help explains")


def run_judge(options: argparse.Namespace) -> int:
    if not options.files:
        read_from_standard_input(options)
    hours = Hours(options)
    explained = options.form is not None or options.junit is not None
    counts = not options.quiet and not (options.form in ("jsonl", "csv") and goes_to_terminal())
    results = judging.results(hours.sources, complain, explained, counts)
    is_good = judging.is_accepted if options.strict else judging.is_good
    rows = judge_report.report(results, is_good, options.form, options.refused, options.junit)
    say_notices(hours, rows)
    return status_of(rows, is_good)


def say_notices(hours: Hours, answers: Iterable[Answered]) -> None:
    for line in hours.notices(answers):
        complain(line)


def status_of(answers: Sequence[A], is_good: Callable[[A], bool]) -> int:
    """2 where an hour could not be read, 0 where all are good."""
    if any(answer.error for answer in answers):
        return 2
    return 0 if all(map(is_good, answers)) else 1


def run_explain(options: argparse.Namespace) -> int:
    hours = Hours(options)
    answers = hours.asked(
        each_hour.ask_explained,
        lambda name, error: each_hour.Explained(name, error=error),
        complain,
        with_progress=not goes_to_terminal(),
    )
    results: list[each_hour.Explained] = []
    each_hour.put_texts(noted(answers, results), lambda result: result.text, len(hours.sources) > 1)
    say_notices(hours, results)
    return status_of(results, lambda result: result.accepted)


def noted(answers: Iterable[A], results: list[A]) -> Iterator[A]:
    """The answers, each of which is also put into a list."""
    for answer in answers:
        results.append(answer)
        yield answer


def run_shortfalls(options: argparse.Namespace) -> int:
    from . import shortfalls_cli

    hours = Hours(options)
    results = put_answers(
        options,
        hours,
        lambda source, read_hour: shortfalls_cli.ask(source.name, read_hour),
        lambda name, error: shortfalls_cli.ShortfallsResult(name, error=error),
        shortfalls_cli,
    )
    say_notices(hours, results)
    return status_of(results, lambda result: result.answered)


def put_answers(
    options: argparse.Namespace,
    hours: Hours,
    ask: Callable[[Input, HourFiles], A],
    failed: Callable[[str, str], A],
    writer: Any,
) -> list[A]:
    """Asks for the answer on every hour, prints each in the form that is asked for, and gives them all back."""
    form = options.form
    results: list[A] = []
    counts = form == "json" or not goes_to_terminal()
    answers = noted(hours.asked(ask, failed, complain, form is None, counts), results)
    if form is None:
        each_hour.put_texts(answers, writer.as_text, len(hours.sources) > 1)
    else:
        each_hour.put_records(form, writer.RECORD_TYPE, map(writer.record, answers))
    return results


def run_intuitive(options: argparse.Namespace) -> int:
    from . import exchanges

    given: exchanges.Pairs | None = None
    pairs_read: list[inputs.Hashed] = []
    if options.pairs is not None:
        data = read(options.pairs)
        pairs_read = [hashed(options.pairs, data)]
        given = exchanges.read_pairs(pairs_read[0].file, data)

    def ask(source: Input, read_hour: HourFiles) -> exchanges.IntuitiveResult:
        pairs = exchanges.links(read_hour.case) if given is None else given
        return exchanges.ask(source.name, read_hour, pairs, pairs_read)

    hours = Hours(options)
    results = put_answers(
        options, hours, ask, lambda name, error: exchanges.IntuitiveResult(name, error=error), exchanges
    )
    say_notices(hours, results)
    return status_of(results, lambda result: result.intuitive)


def proposal_names(out: str | None, sources: Sequence[inputs.Input]) -> list[str | None]:
    """Where the proposal of each dump is written: to the file that -o names, or under its own name to that folder."""
    if out is None or not os.path.isdir(out):
        if out is not None and len(sources) > 1:
            raise Failure(f"{out}: no folder; -o of several dumps names a folder")
        return [out] * len(sources)
    names: dict[str, str] = {}
    for source in sources:
        stem = os.path.splitext(os.path.basename(source.name))[0]
        path = os.path.join(out, f"{stem}.proposal")
        if path in names:
            raise Failure(f"{path}: named for two outputs, of {names[path]} and of {source.name}")
        names[path] = source.name
    return list(names)


def run_dump(options: argparse.Namespace) -> int:
    from . import dump_command

    hours = Hours(options, fellows=(DUMP,))
    statuses, answers = [], []
    for source, out in zip(hours.sources, proposal_names(options.out, hours.sources)):
        try:
            files = dump_command.files_of(source)
            answers.append(Result(source.name, inputs=files.inputs))
            options.out = out
            if out is not None:
                refuse_outputs([out], options.force)
            result = dump_command.ask(files.case, files.dump)
            if len(hours.sources) > 1:
                put(f"{printable(source.name)}: ")
            statuses.append(written(options, result, "proposal", result.answer.proposal))
        except (InputError, WriteError, Disagreement) as fault:
            complain(fault)
            statuses.append(2)
    say_notices(hours, answers)
    return max(statuses)


def written(options: argparse.Namespace, result: DumpResult | ColumnsResult, name: str, data: bytes | None) -> int:
    """Writes what the library gave, or says its length, or why there is nothing."""
    if data is None:
        put(f"not written; {result.words}\n")
        return 1
    if options.out is None:
        put(f"{name} {len(data)} bytes\n")
        return 0
    write_output(options.out, data, options.force)
    if options.out != "-":
        put(f"wrote {printable(options.out)}\n")
    return 0


def run_columns(options: argparse.Namespace) -> int:
    from . import columns

    if len(options.files) > 1:
        raise Failure(f"{options.files[1]}: {options.command} takes one file")
    data, file = inputs.read_hashed(options.files[0], CASE)
    if options.out is not None:
        refuse_outputs([options.out], options.force)
    columning = options.command == "column"
    result = columns.column(data) if columning else columns.restore(data)
    status = written(options, result, "columned file" if columning else "case", result.answer.file)
    if file.cut:
        complain(each_hour.cut_words([file.file]))
    return status


def run_page(options: argparse.Namespace) -> int:
    from . import page

    hours = Hours(options)
    sources = hours.sources
    if len(sources) > page.MOST_HOURS:
        most = f"a page takes at most {page.MOST_HOURS:,}; lta judge takes any number"
        raise Failure(f"{options.files[0]}: {len(sources):,} hours, and {most}")
    out = page_name(options.files, sources) if options.out is None else options.out
    refuse_outputs([out], options.force)
    unread: list[InputError] = []
    answers: list[Result] = []
    judged_at = time.strftime("%Y-%m-%d %H:%M:%S UTC", time.gmtime()) if options.time else ""
    drawn = page.page(options.files, sources, unread.append, judged_at, answers.append)
    write_output(out, drawn.encode(), options.force)
    if out != "-":
        put(f"wrote {printable(out)}\n")
    for fault in unread:
        complain(fault)
    say_notices(hours, answers)
    return 2 if unread else 0


def page_name(files: Sequence[str], sources: Sequence[Input]) -> str:
    """The page of a folder, or of one hour, is named after it, and stands where the command is called."""
    named = files[0] if files and os.path.isdir(files[0]) else sources[0].name
    stem = os.path.splitext(os.path.basename(os.path.abspath(named)))[0] or "hours"
    return f"{stem}.html"


def refuse_to_show(files: Sequence[str], way: str | None) -> None:
    """Files whose names say that they are not what show would take them for."""
    takes = "show takes a case, a proposal or a dump, and perhaps a family list, one joined file, or one text"
    if len(files) > 3 or (len(files) == 3 and kind_of(files[2]) not in (FAMILIES, None)):
        raise Failure(f"{files[2]}: {takes}")
    kind = kind_of(files[0])
    if way is None and kind in (PROPOSAL, DUMP, FAMILIES):
        raise InputError(files[0], f"a {hour.CALLED.get(kind, kind)} is shown after its case")
    if len(files) >= 2:
        second = (PROPOSAL, None) if len(files) == 3 else (PROPOSAL, FAMILIES, DUMP, None)
        for path, kinds in zip(files, ((CASE, None), second)):
            if path != "-" and kind_of(path) not in kinds:
                raise InputError(path, takes)


def run_show(options: argparse.Namespace) -> int:
    from . import dump_command

    refuse_to_show(options.files, options.way)
    if options.way is None and kind_of(options.files[0]) == TEXT:
        data = read(options.files[0])
        if dump_command.is_text(data):
            files = dump_command.text_dump(options.files[0], data)
            put(dump_command.ask(files.case, files.dump).shown)
            return 0
        built = text_hour(options.files[0], data)
        put(hour.show(built.case, built.proposal, built.families))
        return 0
    first = read(options.files[0])
    if len(options.files) == 2 and kind_of(options.files[1]) == DUMP:
        put(dump_command.ask(first, read(options.files[1])).shown)
        return 0
    if len(options.files) == 2 and kind_of(options.files[1]) == FAMILIES:
        put(hour.show(first, b"", read(options.files[1])))
        return 0
    if len(options.files) >= 2:
        put(hour.show(first, *map(read, options.files[1:])))
        return 0
    joined = JOINED in (options.way, kind_of(options.files[0]))
    put(hour.show(*rules.cut(first)) if joined else hour.show(first))
    return 0


def run_field(options: argparse.Namespace) -> int:
    if not 2 <= len(options.files) <= 4:
        raise Failure("field takes a case, perhaps a proposal and a family list, and an offset")
    *files, word = options.files
    offset = hour.offset_of(word)
    given: list[bytes | None] = [read(path) for path in files]
    if len(files) == 2 and kind_of(files[1]) == FAMILIES:
        given.insert(1, None)
    try:
        put(hour.field_at(offset, given[0] or b"", *given[1:]) + "\n")
    except hour.OffsetError as fault:
        raise InputError(files[-1], fault) from None
    return 0


def run_build(options: argparse.Namespace) -> int:
    from . import dump_command

    (text,) = options.files
    data = read(text)
    if dump_command.is_text(data):
        files = dump_command.text_dump(text, data)
        made = {"case": files.case, "dump": files.dump}
    else:
        built = text_hour(text, data)
        made = {"case": built.case, "proposal": built.proposal, "joined": built.joined or b""}
        if built.families is not None:
            made["families"] = built.families
    asked = {name: getattr(options, name) for name in commands.BUILT if getattr(options, name) is not None}
    for name in asked:
        if name not in made:
            raise InputError(text, f"the text has no {'proposal' if name == 'joined' else name}")
    write_outputs([Output(path, made[name]) for name, path in asked.items()], options.force)
    if not asked:
        made.pop("joined", None)
        put(", ".join(f"{name} {len(file)} bytes" for name, file in made.items()) + "\n")
    return 0


def run_diff(options: argparse.Namespace) -> int:
    from . import diff

    judge_options = ["--no-families"] if options.no_families else []
    judge_options += [f"--ignore={glob}" for glob in options.ignore or ()]
    one, other = diff.ask(options.files, options.library or (), judge_options)
    found = diff.differences(one, other)
    put(diff.as_form(options.form, one, other, found))
    return diff.status(one, other, found, judged_here=bool(options.library))


def run_version(options: argparse.Namespace) -> int:
    put(library.version_text())
    return 0


def help_text(topics: Sequence[str]) -> str:
    """What help prints of a topic, if one is named."""
    from . import dump_format

    if not topics:
        return usage.overview()
    if topics[0] == "text":
        return f"{hour.TEXT_HELP}\n{dump_format.TEXT_HELP}"
    return usage.command_help(usage.command_named(topics[0]))


def run_help(options: argparse.Namespace) -> int:
    put(help_text(options.files))
    return 0


# What runs each command of commands.py.
RUN = {
    "judge": run_judge,
    "explain": run_explain,
    "shortfalls": run_shortfalls,
    "intuitive": run_intuitive,
    "dump": run_dump,
    "column": run_columns,
    "restore": run_columns,
    "page": run_page,
    "show": run_show,
    "field": run_field,
    "build": run_build,
    "diff": run_diff,
    "help": run_help,
    "version": run_version,
}


def answer_of(options: argparse.Namespace) -> Answer:
    """Where the answer of a command goes, by its options; nothing in its way is written over."""
    asked, junit = (getattr(options, name, None) for name in ("answer", "junit"))
    force = getattr(options, "force", False)
    refuse_outputs([path for path in (asked, junit) if path is not None], force)
    quiet = getattr(options, "quiet", False) and asked is None and getattr(options, "form", None) is None
    answer = Answer(asked, force, not quiet)
    if junit == STANDARD_OUTPUT and answer.path is None and answer.wanted:
        raise WriteError("--junit -: standard output has the answer; use -o FILE or --quiet")
    return answer


def main(arguments: list[str]) -> int:
    """Runs a command and gives its status."""
    try:
        options = usage.parsed(usage.with_help(arguments))
        answer = answer_of(options)
        with answering(answer):
            status = RUN[options.command](options)
        if answer.path is not None and not options.quiet and STANDARD_OUTPUT not in answer.files:
            put("".join(f"wrote {printable(path)}\n" for path in answer.files))
        if sys.stdout is not None:
            sys.stdout.flush()
        return status
    except FAULTS as fault:
        complain(fault)
    except BrokenPipeError:
        raise
    except OSError as fault:
        complain(f"{fault.filename or 'standard output'}: {why_not(fault)}")
    except Exception as fault:  # pylint: disable=broad-except
        complain(f"a fault of lta itself, to be reported: {type(fault).__name__}: {fault}")
    return 2


def ended_by(number: int) -> None:
    """Ends the process by a signal, as its caller expects of a command that was interrupted or whose reader left."""
    signal.signal(number, signal.SIG_DFL)
    os.kill(os.getpid(), number)


def whole_stream(stream: TextIO | None) -> TextIO | None:
    """A stream that prints any character and writes all: Python's own, where unbuffered, drops what a pipe leaves."""
    if stream is None:
        return None
    return open(stream.fileno(), "w", encoding=stream.encoding, errors="backslashreplace", newline="", closefd=False)


def run() -> NoReturn:
    """The process: main over its arguments, its streams, and the signals that end it."""
    try:
        # A closed stream is None, which the type of these leaves out.
        sys.stdout, sys.stderr = whole_stream(sys.stdout), whole_stream(sys.stderr)  # type: ignore[assignment]
        status = main(sys.argv[1:])
    except KeyboardInterrupt:
        complain("interrupted")
        ended_by(signal.SIGINT)
    except BrokenPipeError:
        ended_by(signal.SIGPIPE)
    # What is left in a buffer that cannot be written was complained of; it is not tried again.
    os._exit(status)
