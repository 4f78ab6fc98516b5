"""The records that lta writes for machines: their fields, and how JSON, JSON Lines and CSV have them.

tools/build_schema.py writes the tables of docs/SCHEMA.md, and docs/schema.json, from the fields here. A field that is
renamed or removed, or that changes its meaning, raises VERSION; a new field does not.
"""

from __future__ import annotations

import json
from collections.abc import Iterable, Mapping, Sequence
from dataclasses import dataclass
from typing import Any

from . import amounts, hour, library, numbers

VERSION = 1
MOST_ZONES = 16
MONEY_DECIMALS, PRICE_DECIMALS, MW_DECIMALS = 8, 7, 1

TEXT, INTEGER, DECIMAL, BOOLEAN = "text", "integer", "decimal", "boolean"
PRICES, INPUTS, ZONES, PAIRS, PARTS = "prices", "inputs", "zones", "pairs", "parts"


@dataclass(frozen=True)
class Field:
    """A field of a record: its name, its kind, what it says, and whether it may be null."""

    name: str
    kind: str
    words: str
    null: bool = True

    @property
    def columns(self) -> list[str]:
        """The columns of CSV that hold it."""
        if self.kind == PRICES:
            return [f"price_euros_{zone}" for zone in range(MOST_ZONES)]
        if self.kind == INPUTS:
            return ["inputs_sha256"]
        return [self.name]

    def cells(self, value: Any) -> list[str]:
        """The cells of those columns."""
        if self.kind == PRICES:
            return [*value, *[""] * (MOST_ZONES - len(value))]
        if self.kind == INPUTS:
            return [" ".join(one["sha256"] for one in value)]
        if value is None:
            return [""]
        if self.kind == BOOLEAN:
            return ["1" if value else "0"]
        return [safe(value) if self.kind == TEXT else str(value)]


Record = dict[str, Any]

FIRST = (
    Field("schema_version", INTEGER, f"{VERSION}: the version of this schema", null=False),
    Field("record_type", TEXT, "which table of this document describes the record", null=False),
    Field("file_name", TEXT, "the hour, by the name of its case, its joined file or its text", null=False),
)
ANSWER = (
    Field("error", TEXT, "why the hour could not be read; null if it was read"),
    Field("verdict", INTEGER, "the library's number; 0 is accepted or answered"),
    Field("verdict_name", TEXT, "the name of the number in `include/lta_judgement.h`"),
    Field("verdict_index", INTEGER, "the library's index: the place of the first cause"),
    Field("index_kind", TEXT, "what the index counts; null if the number has no place"),
    Field("verdict_text", TEXT, "what the number means"),
)
FAMILIES = Field("families", TEXT, "the hour's family list: used, left out or none; null if it could not be read")
EXPLANATION = Field("explanation", TEXT, "the verdict in a sentence, not proved; null if the hour could not be read")
BUILD = (
    Field("version", TEXT, "the version of lta", null=False),
    Field("library_sha256", TEXT, "the SHA-256 of the library that answered", null=False),
    Field("library_belongs", BOOLEAN, "whether that library belongs to this lta", null=False),
    Field("inputs", INPUTS, "every file that was read for the hour: `file_name` and `sha256`", null=False),
)
TOTALS_MEAN = {
    "welfare": "the welfare",
    "bound": "the bound on the welfare",
    "gap": "the bound less the welfare",
    "rent": "the congestion rent",
    "owed": "what is owed to the holders of long-term rights",
}
TOTALS = tuple(
    field
    for name in hour.TOTALS
    for field in (
        Field(f"{name}_microcents", INTEGER, f"{TOTALS_MEAN[name]}; null without a report"),
        Field(f"{name}_euros", DECIMAL, f"the same in euros, {MONEY_DECIMALS} decimals"),
    )
)
PART_FIELDS = (
    Field("part_kind", TEXT, "what falls short: order, branch or link"),
    Field("part_index", INTEGER, "its place in the case, from 0"),
    Field("part_microcents", INTEGER, "by how much, whole microcents"),
    Field("part_hundred_thousandths", INTEGER, "the rest, in hundred-thousandths of a microcent"),
    Field("part_euros", DECIMAL, "both together in euros, 13 decimals"),
)
JUDGE, SHORTFALLS, INTUITIVE, DIFFERENCE = "judge", "shortfalls", "intuitive", "difference"
# The fields of each type of record, in their order.
FIELDS: dict[str, tuple[Field, ...]] = {
    JUDGE: (
        *FIRST,
        Field("way", TEXT, "joined or apart, if a text has a record for each; else null"),
        *ANSWER,
        Field("accepted", BOOLEAN, "whether the hour is accepted; null if it could not be read"),
        FAMILIES,
        *TOTALS,
        Field(
            "prices_euros", PRICES, "each zone's price in euros per MWh, 7 decimals; empty without a report", null=False
        ),
        EXPLANATION,
        Field("expected_verdict", INTEGER, "the number that the hour's text expects; null if it expects nothing"),
        Field("expected_index", INTEGER, "the index that it expects"),
        *(Field(f"expected_{name}_euros", DECIMAL, f"the {name} that it expects") for name in hour.TOTALS),
        Field("as_expected", BOOLEAN, "whether verdict and totals are as the text expects; null if it expects nothing"),
        *BUILD,
    ),
    SHORTFALLS: (
        *FIRST,
        *ANSWER,
        FAMILIES,
        Field("gap_microcents", INTEGER, "the gap; null if the hour is not accepted"),
        Field("gap_euros", DECIMAL, "the same in euros"),
        Field("left_euros", DECIMAL, "what is left of the gap: the larger total's lead, 13 decimals; not proved"),
        Field("shortfalls", PARTS, "every order, branch and link in file order; null if the hour is not accepted"),
        EXPLANATION,
        *BUILD,
    ),
    INTUITIVE: (
        *FIRST,
        *ANSWER,
        FAMILIES,
        Field("intuitive", BOOLEAN, "whether all exports can be carried; null if not answered"),
        Field("carried_mw", DECIMAL, "the most that can be carried"),
        Field("exports_mw", DECIMAL, "the sum of all exports"),
        Field("not_carried_mw", DECIMAL, "exports less what can be carried"),
        Field("cut_off", ZONES, "the zones that are cut off; not proved"),
        Field("pairs", PAIRS, "the pairs of zones along which flow may go"),
        Field("counted", PAIRS, "the pairs that count at the zone prices; not proved"),
        EXPLANATION,
        *BUILD,
    ),
    DIFFERENCE: (
        *FIRST,
        Field("way", TEXT, "as in the records of judge"),
        Field("differs_in", TEXT, "the column of judge's CSV that differs; `hour` if only one has it", null=False),
        Field("value_a", TEXT, "its value in A"),
        Field("value_b", TEXT, "its value in B"),
    ),
}


# Values.


def euros(microcents: int | None) -> str | None:
    return None if microcents is None else amounts.fixed(microcents, MONEY_DECIMALS)


def totals(prefix: str, given: Mapping[str, int]) -> Record:
    """The totals in euros under names with a prefix, null for those that are not given."""
    return {f"{prefix}{name}_euros": euros(given.get(name)) for name in hour.TOTALS}


def answered(number: int | None, index: int | None, text: str | None) -> Record:
    """A number of the library: its name, its index and what that counts, its meaning."""
    row = numbers.ROWS.get(-1 if number is None else number)
    return {
        "verdict": number,
        "verdict_name": row.name if row else None,
        "verdict_index": index,
        "index_kind": row.index or None if row else None,
        "verdict_text": text,
    }


def record(record_type: str, file_name: str, inputs: Sequence[Any] | None, **values: Any) -> Record:
    """A record of a type: its fields in their order, null where there is no value."""
    made = {"schema_version": VERSION, "record_type": record_type, "file_name": file_name, **values}
    if inputs is not None:
        made.update(library.identity())
        made["inputs"] = [{"file_name": one.file, "sha256": one.sha256} for one in inputs]
    fields = FIELDS[record_type]
    unknown = set(made) - {field.name for field in fields}
    if unknown:
        raise ValueError(f"{record_type} has no field {', '.join(sorted(unknown))}")
    return {field.name: made.get(field.name) for field in fields}


def answer_record(record_type: str, result: Any, **values: Any) -> Record:
    """A record of a command's answer on an hour: what shortfalls and intuitive have in common, and their own values."""
    answer = result.answer
    given = (answer.number, answer.index, answer.text) if answer is not None else (None, None, None)
    return record(
        record_type,
        result.name,
        result.inputs,
        error=result.error or None,
        families=result.families or None,
        **answered(*given),
        **values,
    )


# Written.


def safe(text: str) -> str:
    """A text that no spreadsheet takes for a formula: one that begins as a formula does has an apostrophe before it.
    One that begins with an apostrophe has a second, so that the first can always be taken off.
    """
    return f"'{text}" if text[:1] in ("=", "+", "-", "@", "\t", "\r", "'") else text


def unsafe(cell: str) -> str:
    """The text of a cell that safe made."""
    return cell[1:] if cell.startswith("'") else cell


def json_line(one: Record) -> str:
    return json.dumps(one) + "\n"


def json_text(whole: Record | list[Record]) -> str:
    return json.dumps(whole, indent=1) + "\n"


def csv_fields(record_type: str) -> list[Field]:
    """The fields of a row of CSV: of a shortfall its own in the place of the list."""
    return [one for field in FIELDS[record_type] for one in (PART_FIELDS if field.kind == PARTS else (field,))]


def quoted(cell: str) -> str:
    """A cell between quotes where it needs them. Python's csv leaves a carriage return without."""
    return '"' + cell.replace('"', '""') + '"' if any(mark in cell for mark in '",\r\n') else cell


def csv_line(cells: Iterable[str]) -> str:
    return ",".join(map(quoted, cells)) + "\n"


def csv_header(record_type: str) -> str:
    return csv_line(column for field in csv_fields(record_type) for column in field.columns)


def csv_rows(one: Record) -> str:
    """The rows of a record: one, or of shortfalls one for each and one without a part where there is none."""
    fields = csv_fields(one["record_type"])
    parts = one.get("shortfalls") or [{}]
    rows = ({**one, **part} for part in parts)
    return "".join(csv_line(cell for field in fields for cell in field.cells(row.get(field.name))) for row in rows)


def in_form(form: str, record_type: str, records: list[Record]) -> str:
    """Records of one type as json, jsonl or csv."""
    if form == "json":
        return json_text(records)
    if form == "jsonl":
        return "".join(map(json_line, records))
    return csv_header(record_type) + "".join(map(csv_rows, records))
