"""lta diff: the hours whose results differ between two result files of lta judge, or between two libraries."""

from __future__ import annotations

import csv
import io
import json
import os
import subprocess
import sys
from collections import Counter
from collections.abc import Iterable, Sequence
from dataclasses import dataclass
from typing import Any

from . import amounts, explain_text, hour, origin, schema
from .inputs import InputError, printable, read
from .stderr_log import write_stderr
from .usage import UsageError

MOST_OF_RESULTS = 2**30  # bytes
# What is compared, by the columns of judge's CSV.
COMPARED = (
    "error",
    "verdict",
    "verdict_index",
    *(f"{name}_euros" for name in hour.TOTALS),
    *(f"price_euros_{zone}" for zone in range(schema.MOST_ZONES)),
)
FIELDS = {field.name: field for field in schema.FIELDS[schema.JUDGE]}
NO_RECORDS = "no records of lta judge; docs/SCHEMA.md describes them"
ONLY_ONE = "hour"
# An hour: its file, its way, and which one it is of those that are named so.
Hour = tuple[str, str, int]
Row = dict[str, str]


class RecordError(Exception):
    """Records that cannot be compared: what is wrong with them."""


@dataclass(frozen=True)
class Side:
    """One of the two: its name, which build answered, and what is compared of its hours."""

    name: str
    build: str
    rows: dict[Hour, Row]


@dataclass(frozen=True)
class Difference:
    """An hour, the column that differs, and both values; None where one side does not have the hour."""

    hour: Hour
    column: str
    values: tuple[str | None, str | None]


# Reading.


def row_of(made: schema.Record) -> Row:
    """The columns of a record of JSON, as a row of CSV has them."""
    cells: Row = {}
    for field in FIELDS.values():
        if field.name in made:
            cells.update(zip(field.columns, field.cells(made[field.name])))
    return cells


def rows_of_text(text: str) -> Iterable[Row]:
    """The rows of a result file: JSON, JSON Lines or CSV, as its first character says."""
    first = text.lstrip()[:1]
    if first == "[":
        return map(row_of, json.loads(text))
    if first == "{":
        return (row_of(json.loads(line)) for line in text.splitlines() if line.strip())
    reader = csv.DictReader(io.StringIO(text, newline=""))
    if first and "record_type" not in (reader.fieldnames or ()):
        raise RecordError(NO_RECORDS)
    return reader


def as_written(text: str) -> str:
    """A text of JSON as CSV has it: a byte of a name that is no UTF-8 has an escape."""
    return text.encode(errors="backslashreplace").decode()


def side_of(name: str, rows: Iterable[Row]) -> Side:
    """The hours of some rows, which are records of judge in this version of the schema."""
    found: dict[Hour, Row] = {}
    seen: Counter[tuple[str, str]] = Counter()
    builds = set()
    for row in rows:
        if row.get("record_type") != schema.JUDGE:
            raise RecordError(NO_RECORDS)
        if row.get("schema_version") != str(schema.VERSION):
            version = row.get("schema_version")
            raise RecordError(f"records of schema version {version}, and this lta reads version {schema.VERSION}")
        lacking = [column for column in ("file_name", *COMPARED) if not isinstance(row.get(column), str)]
        if lacking:
            raise RecordError(f"a record without {lacking[0]}")
        file, error = (as_written(schema.unsafe(row[column])) for column in ("file_name", "error"))
        place = file, row.get("way") or ""
        found[(*place, seen[place])] = {**{column: row[column] for column in COMPARED}, "error": error}
        seen[place] += 1
        builds.add(f"version {row.get('version')}, library {str(row.get('library_sha256'))[:12]}")
    return Side(name, "; ".join(sorted(builds)) or "no hour", found)


def side_of_file(path: str) -> Side:
    """A result file."""
    data = read(path, MOST_OF_RESULTS)
    try:
        return side_of(path, rows_of_text(data.decode("utf-8-sig")))
    except RecordError as fault:
        raise InputError(path, fault) from None
    except (ValueError, KeyError, TypeError, AttributeError, csv.Error, RecursionError):
        raise InputError(path, "no result file of lta judge: JSON, JSON Lines or CSV") from None


def side_of_library(folder: str, words: Sequence[str], said: set[str]) -> Side:
    """What lta judge with these words answers by the library of a folder, in a process of its own. A message that was
    said before is not repeated.
    """
    environment = {**os.environ, "LTA_ARCHIVE_DIR": folder}
    # By its path: with -m Python would look for modules in the present folder first.
    command = [sys.executable, str(origin.PACKAGE / "__main__.py"), "judge", "--jsonl", *words]
    options: dict[str, Any] = {"stdin": subprocess.DEVNULL, "capture_output": True, "text": True, "errors": "replace"}
    done = subprocess.run(command, env=environment, check=False, **options)
    if done.returncode not in (0, 1, 2):
        raise InputError(folder, f"judging by this library ended with status {done.returncode}")
    if not done.stdout:
        why = done.stderr.strip().splitlines() or ["it says nothing"]
        raise InputError(folder, f"nothing was judged: {why[-1].removeprefix('lta: ')}")
    messages = done.stderr.splitlines(keepends=True)
    write_stderr("".join(line for line in messages if line not in said))
    said.update(messages)
    return side_of(folder, rows_of_text(done.stdout))


# Comparing.


def differences(one: Side, other: Side) -> list[Difference]:
    """What differs, in the order of the hours, with those that only the other side has last."""
    found = []
    for place in [*one.rows, *(place for place in other.rows if place not in one.rows)]:
        rows = one.rows.get(place), other.rows.get(place)
        if rows[0] is None or rows[1] is None:
            there = ["there" if row is not None else None for row in rows]
            found.append(Difference(place, ONLY_ONE, (there[0], there[1])))
            continue
        for column in COMPARED:
            values = rows[0][column], rows[1][column]
            if values[0] != values[1]:
                found.append(Difference(place, column, values))
    return found


# Written.


def name_of(place: Hour) -> str:
    file, way, turn = place
    return printable(file) + (f" ({way})" if way else "") + (f" (named again, {turn})" if turn else "")


def summary(one: Side, other: Side, found: Sequence[Difference]) -> str:
    """The closing line: how many hours there are, differ, and are on one side alone."""
    both = len(one.rows.keys() & other.rows.keys())
    differ = len({difference.hour for difference in found if difference.column != ONLY_ONE})
    only = [sum(d.column == ONLY_ONE and d.values[side] is not None for d in found) for side in (0, 1)]
    return f"{amounts.counted(both, 'hour')} in both: {differ:,} differ; {only[0]:,} only in A, {only[1]:,} only in B"


def as_text(one: Side, other: Side, found: Sequence[Difference]) -> str:
    """A table for a reader."""
    lines = [f"{letter}  {printable(side.name)}: {side.build}" for letter, side in (("A", one), ("B", other))]
    rows = []
    for difference in found:
        shown = ["-" if value is None else printable(value) or "none" for value in difference.values]
        rows.append((name_of(difference.hour), difference.column, *shown))
    if rows:
        lines += ["", *explain_text.columns(("file", "differs in", "A", "B"), rows, left=2)]
    return "\n".join([*lines, "", summary(one, other, found)]) + "\n"


def record(difference: Difference) -> schema.Record:
    file, way, _ = difference.hour
    value_a, value_b = difference.values
    return schema.record(
        schema.DIFFERENCE,
        file,
        None,
        way=way or None,
        differs_in=difference.column,
        value_a=value_a,
        value_b=value_b,
    )


def as_form(form: str | None, one: Side, other: Side, found: Sequence[Difference]) -> str:
    """The differences in the form that is asked for."""
    if form is None:
        return as_text(one, other, found)
    return schema.in_form(form, schema.DIFFERENCE, [record(difference) for difference in found])


def ask(files: Sequence[str], libraries: Sequence[str], judge_options: Sequence[str]) -> tuple[Side, Side]:
    """Both sides: two result files, or two libraries over the hours that the files and options of judge name."""
    if not libraries:
        if judge_options:
            option = judge_options[0].partition("=")[0]
            raise UsageError(f"{option} goes with --library; lta diff --help explains")
        if len(files) != 2:
            raise UsageError(f"diff compares two result files, not {len(files)}; lta diff --help explains")
        return side_of_file(files[0]), side_of_file(files[1])
    if len(libraries) != 2:
        raise UsageError("diff takes --library twice, for A and for B; lta diff --help explains")
    if "-" in files:
        raise UsageError("-: two libraries cannot both read standard input; name files")
    words = [*judge_options, "--", *files]
    said: set[str] = set()
    return side_of_library(libraries[0], words, said), side_of_library(libraries[1], words, said)


def status(one: Side, other: Side, found: Sequence[Difference], judged_here: bool) -> int:
    """1 where something differs. Two libraries agree on nothing in an hour that could not be read: that is 2."""
    if judged_here and any(row["error"] for side in (one, other) for row in side.rows.values()):
        return 2
    return 1 if found else 0
