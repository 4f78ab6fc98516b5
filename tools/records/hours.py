"""The stored hours at the desk, letter h. After its name a record has the case with the proposal directly after it. The
lines are the desk's: the verdict and the totals that the text expects, and prices by rule 6. ./lta help text explains
the lines of a text.
"""

from __future__ import annotations

import pathlib
from collections.abc import Iterator

from lta import amounts, hour, rules

from . import Record, named, text, texts

HOURS = pathlib.Path(__file__).resolve().parent.parent.parent / "hours"
PRICE_DECIMALS = 7


def stored_hours() -> dict[str, str]:
    """The texts of the stored hours by name, sorted."""
    return texts(HOURS)


def lines(words: str) -> list[str]:
    """The desk's lines for an hour: the totals that its text expects, which tests/stored_hours holds to both judges."""
    (number, index), _, totals = hour.expected(words)
    due = [f"verdict {number} {index}"]
    if number not in hour.REPORTED:
        return due
    prices = rules.Sums(*hour.build(words, HOURS)).prices
    due += [f"{name} {amounts.fixed(total, hour.MICROCENT_DECIMALS)}" for name, total in totals.items()]
    return due + [f"price {zone} {amounts.fixed(price, PRICE_DECIMALS)}" for zone, price in enumerate(prices)]


def joined(words: str) -> bytes:
    return b"".join(hour.build(words, HOURS))


def runs() -> Iterator[tuple[tuple[Record, ...], list[str]]]:
    for name, words in stored_hours().items():
        file = f"{name}.bin"
        yield (text(f"{file}\n"), Record(b"h", (named(name, joined, words),))), [file, *named(name, lines, words)]
