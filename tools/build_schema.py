#!/usr/bin/env python3
"""build_schema.py writes docs/SCHEMA.md and docs/schema.json, which describe lta's records for machines, from the
fields in tools/lta/schema.py. tests/lta_output says when that is due.
"""

from __future__ import annotations

import json
import pathlib
import sys
from typing import Any

import generated
from lta import schema
from lta.schema import Field

DOCS = pathlib.Path(__file__).resolve().parent.parent / "docs"
DECIMAL = {"type": "string", "pattern": "^-?[0-9]+[.][0-9]+$"}
ZONE = {"type": "integer"}

# What a kind is: in JSON, by JSON Schema, and in CSV.
KINDS: dict[str, tuple[str, dict[str, Any], str]] = {
    schema.TEXT: ("string", {"type": "string"}, "text"),
    schema.INTEGER: ("integer", {"type": "integer"}, "number"),
    schema.DECIMAL: ("string, a decimal", DECIMAL, "number"),
    schema.BOOLEAN: ("boolean", {"type": "boolean"}, "1 or 0"),
    schema.PRICES: (
        "array of decimals",
        {"type": "array", "items": DECIMAL},
        "numbers: `price_euros_0` to `price_euros_15`",
    ),
    schema.INPUTS: (
        "array of objects",
        {"type": "array", "items": "INPUT"},
        "text: `inputs_sha256`, the hashes separated by blanks",
    ),
    schema.ZONES: ("array of zones", {"type": "array", "items": ZONE}, "none"),
    schema.PAIRS: ("array of pairs", {"type": "array", "items": {"type": "array", "items": ZONE}}, "none"),
    schema.PARTS: ("array of objects", {"type": "array", "items": "PART"}, "a row for each, with the fields below"),
}
INPUT_FIELDS = (
    Field("file_name", schema.TEXT, "the file as it was named", null=False),
    Field("sha256", schema.TEXT, "the SHA-256 of its bytes", null=False),
)


# The JSON Schema.


def field_schema(field: Field) -> dict[str, Any]:
    made = dict(KINDS[field.kind][1])
    if made.get("items") == "INPUT":
        made["items"] = object_schema(INPUT_FIELDS)
    elif made.get("items") == "PART":
        made["items"] = object_schema(schema.PART_FIELDS)
    if field.null:
        made["type"] = [made["type"], "null"]
    return made


def object_schema(fields: tuple[Field, ...]) -> dict[str, Any]:
    names = [field.name for field in fields]
    properties = {field.name: field_schema(field) for field in fields}
    return {"type": "object", "properties": properties, "required": names}


def record_schema(record_type: str) -> dict[str, Any]:
    made = object_schema(schema.FIELDS[record_type])
    made["properties"]["schema_version"] = {"const": schema.VERSION}
    made["properties"]["record_type"] = {"const": record_type}
    return made


def json_schema() -> str:
    whole = {
        "$schema": "https://json-schema.org/draft/2020-12/schema",
        "title": "A record of lta",
        "description": "One object of --json, or one line of --jsonl. tools/build_schema.py writes this file.",
        "anyOf": [{"$ref": f"#/$defs/{name}"} for name in schema.FIELDS],
        "$defs": {name: record_schema(name) for name in schema.FIELDS},
    }
    return json.dumps(whole, indent=1) + "\n"


# The document.

OPENING = """\
# Records for machines

`lta judge`, `shortfalls`, `intuitive` and `diff` write records for machines. This is version {version} of their schema;
every record has it as `schema_version`. A field that is renamed or removed, or that changes its meaning, raises the
version. A new field does not: skip the fields that you do not know.

| Option | What it writes |
|---|---|
| `--json` | an array of records |
| `--jsonl` | JSON Lines: a record on each line, written as soon as its hour is judged |
| `--csv` | a line of column names, then a line for each record |

All three have the same fields under the same names. `docs/schema.json` describes the records as a JSON Schema.

- **Money** is given twice: as an integer of microcents, hundred-millionths of a euro, and as a decimal in euros.
  Decimals are strings in JSON, since a binary float cannot hold them. Above 90 million euros the microcents pass 2^53,
  and jq 1.6 and JavaScript round such a number. Take the decimal if that matters.
- **No value**: `null` in JSON, an empty cell in CSV.
- **An hour that could not be read** has a record with `error`, and the fields of an answer have no value.
- **Names** of fields are not keywords of SQL, so they need no quotes in a query.
- **Spreadsheets**: a text cell of the CSV that begins with `=`, `+`, `-`, `@`, a tab, a carriage return or an
  apostrophe has an apostrophe before it, so no program takes it for a formula. Remove one apostrophe to get the text.
  Numbers stay numbers, also negative ones.
- **Proved**: `verdict`, `verdict_index`, totals, prices, shortfalls, `intuitive` and `carried_mw` come from the proved
  library if `library_belongs` is true. `lta` itself computes `explanation` and the fields marked "not proved".

`tools/build_schema.py` writes this page from `tools/lta/schema.py`, and `tests/lta_output` runs its examples.
"""

TITLES = {
    schema.JUDGE: ("lta judge", "A record for each hour, or two if a text has different answers joined and apart."),
    schema.SHORTFALLS: (
        "lta shortfalls",
        "A record for each hour. In CSV each order, branch and link has a row, with the fields of the hour. An hour that is"
        "\nnot accepted, or could not be read, has one row without a part.",
    ),
    schema.INTUITIVE: ("lta intuitive", "A record for each hour, in JSON only."),
    schema.DIFFERENCE: ("lta diff", "A record for each hour and each of its fields that differ."),
}

JUNIT = """\
## JUnit

`lta judge --junit FILE` also writes the results as JUnit XML, which build servers read. Each hour is a test:

| In the file | What it says |
|---|---|
| a test without `failure` or `error` | the hour is accepted, or as its text expects; with `--strict`, the hour is accepted |
| `failure` | the hour does not pass; `type` is the name of the number, the text is the explanation |
| `error` | the hour could not be read, and why |
| `system-out` | what became of the family list: used, left out or none |
"""

EXAMPLES = """\
## Examples

These commands make a day of three hours: one accepted, one refused, and one whose proposal is missing.

```sh
mkdir day
lta build --quiet samples/three-zone.txt --case day/h01.case --proposal day/h01.proposal
lta build --quiet hours/refused-24-second-branch.txt --case day/h02.case --proposal day/h02.proposal
cp day/h01.case day/h03.case
lta judge --quiet --jsonl day -o day.jsonl
lta judge --quiet --csv day -o day.csv
```

The hours that are not accepted, and why, with jq:

```sh
jq -r 'select(.accepted | not) | .file_name + " " + (.explanation // "not read")' day.jsonl
```

```text
day/h02.case 24, branch 1: load 187.5 MW is over 12.5 % of 1,499.9 MW = 187.4875 MW, by 0.0125 MW
day/h03.case not read
```

The price of zone 1 in every accepted hour:

```sh
jq -r 'select(.accepted) | .file_name + " " + .prices_euros[1]' day.jsonl
```

```text
day/h01.case 63.7500000
```

How many hours each number has, with sqlite3:

```sh
sqlite3 day.db '.import --csv day.csv hours' \\
  "SELECT coalesce(nullif(verdict_name, ''), 'not read'), count(*) FROM hours GROUP BY 1 ORDER BY 1"
```

```text
LTA_ACCEPTED|1
LTA_BRANCH_RULE|1
not read|1
```

The sums of the day, exact to a microcent:

```sh
sqlite3 day.db "SELECT sum(CAST(welfare_microcents AS INTEGER)), sum(CAST(rent_microcents AS INTEGER)) FROM hours
  WHERE accepted = 1"
```

```text
2212500000000|1750000000000
```
"""


def table(fields: tuple[Field, ...]) -> str:
    rows = ["| Field | JSON | CSV | What it says |", "|---|---|---|---|"]
    for field in fields:
        in_json, _, in_csv = KINDS[field.kind]
        rows.append(f"| `{field.name}` | {in_json}{' or null' if field.null else ''} | {in_csv} | {field.words} |")
    return "\n".join(rows)


def document() -> str:
    parts = [OPENING.format(version=schema.VERSION)]
    for record_type, fields in schema.FIELDS.items():
        command, words = TITLES[record_type]
        parts += [f"## `{command}`: `record_type` is `{record_type}`\n", f"{words}\n", table(fields) + "\n"]
        if record_type == schema.SHORTFALLS:
            parts += ["The fields of a shortfall:\n", table(schema.PART_FIELDS) + "\n"]
    return "\n".join([*parts, JUNIT, EXAMPLES])


WRITTEN = {DOCS / "SCHEMA.md": document, DOCS / "schema.json": json_schema}


if __name__ == "__main__":
    sys.exit(generated.run(WRITTEN, __doc__, sys.argv[1:]))
