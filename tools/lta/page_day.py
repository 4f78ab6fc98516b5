"""The overview of a page of many hours: the count, the refused hours, and each area with its prices and its hours."""

from __future__ import annotations

import os
from collections.abc import Iterator, Sequence
from dataclasses import dataclass

from . import amounts, drawing, judge_report
from .page_judged import Judged
from .page_markup import cell, element, facts, part, row, sentence, table, text

LEAST_HOURS = 3  # with prices, of which a chart is drawn
TOP = "hours"


@dataclass(frozen=True)
class Placed:
    """An hour, and its place on the page, which its links name."""

    place: int
    hour: Judged

    def link(self, name: str) -> str:
        return element("a", text(name), href=f"#hour-{self.place}")


@dataclass(frozen=True)
class Area:
    """The hours of a folder."""

    name: str
    hours: list[Placed]

    @property
    def refused(self) -> int:
        return sum(not placed.hour.accepted for placed in self.hours)


def areas_of(hours: Sequence[Judged]) -> list[Area]:
    """The hours by the folder that they stand in, in their order."""
    found: dict[str, list[Placed]] = {}
    for place, one in enumerate(hours):
        found.setdefault(os.path.dirname(one.name), []).append(Placed(place, one))
    return [Area(name, placed) for name, placed in found.items()]


# The count.


def count_words(hours: Sequence[Judged], unread: Sequence[str]) -> str:
    refused = sum(not one.accepted for one in hours)
    count = amounts.counted(len(hours), "hour")
    if not hours:
        return "✗ No hour was read"
    if refused:
        return f"✗ {refused:,} of {count} refused"
    every = "✓ All " if len(hours) > 1 else "✓ "
    return f"{'✗ ' if unread else every}{count} accepted" + (f", {len(unread):,} not read" if unread else "")


def summary(hours: Sequence[Judged], unread: Sequence[str]) -> Iterator[str]:
    accepted = sum(one.accepted for one in hours)
    yield amounts.counted(len(hours), "hour")
    yield f"✓ {accepted:,} accepted"
    yield f"✗ {len(hours) - accepted:,} refused"
    as_expected = [one.as_expected for one in hours if one.as_expected is not None]
    if as_expected:
        yield f"{sum(as_expected):,} as their texts expect, {len(as_expected) - sum(as_expected):,} not"
    if unread:
        yield f"{len(unread):,} not read"


def count(title: str, hours: Sequence[Judged], unread: Sequence[str]) -> str:
    """The count in the largest type, and below it what was read."""
    good = bool(hours) and not unread and all(one.accepted for one in hours)
    body = element("h1", text(count_words(hours, unread)), "answer", id=TOP) + element("p", text(title), "path")
    return element("div", body + facts(summary(hours, unread)), f"verdict {'good' if good else 'bad'}") + "\n"


# The refused hours.


def refused_row(placed: Placed) -> str:
    one = placed.hour
    missed = "" if one.as_expected is not False else element("p", f"✗ expected {missed_words(one)}", "bad-text")
    number = element("b", f"✗ {one.judgement.number}", "bad-text")
    words = element("p", f"{number} {placed.link(one.name)}") + element("p", text(sentence(one.words)))
    return element("li", words + missed)


def refused_hours(areas: Sequence[Area]) -> str:
    """Each refused hour with its sentence and a link."""
    rows = [refused_row(placed) for area in areas for placed in area.hours if not placed.hour.accepted]
    return element("ol", "".join(rows), "refused-hours") if rows else ""


# All hours, area by area.


def missed_words(one: Judged) -> str:
    return text("; ".join(f"{missed.due()} {missed.way}".rstrip() for missed in one.missed))


def hour_row(placed: Placed, money: Sequence[str], expecting: bool) -> str:
    one = placed.hour
    answer = "✓ accepted" if one.accepted else f"✗ refused by {one.judgement.number}"
    due = "" if one.as_expected is None else "✓" if one.as_expected else f"✗ {missed_words(one)}"
    cells = [cell(placed.link(os.path.basename(one.name)), name="th"), cell(answer), *[cell(due)] * expecting]
    return row([*cells, *map(cell, money)], "" if one.accepted else "over")


def hours_table(area: Area) -> str:
    hours = [placed.hour for placed in area.hours]
    expecting = any(one.as_expected is not None for one in hours)
    totals = ([getattr(one.judgement, name) for one in hours] for name in judge_report.COLUMNS)
    columns = [judge_report.money_column(amounts_of_hours) for amounts_of_hours in totals]
    rows = [hour_row(placed, money, expecting) for placed, money in zip(area.hours, zip(*columns))]
    names = ["hour", "verdict", *["as expected"] * expecting, *(f"{name}, €" for name in judge_report.COLUMNS)]
    return table(names, rows, "hours-table expecting" if expecting else "hours-table")


def area_prices(area: Area) -> str:
    """The chart of an area's prices, where its hours with prices are of the same zones and there are some."""
    prices = [placed.hour.judgement.prices for placed in area.hours]
    reported = [row_prices for row_prices in prices if row_prices]
    if len(reported) < LEAST_HOURS or len({len(row_prices) for row_prices in reported}) != 1:
        return ""
    names = [os.path.basename(placed.hour.name) for placed in area.hours]
    drawn = drawing.AreaPrices(area.name, names, prices).drawing()
    words = "Zone prices in €/MWh through the hours; the number at a line's end is the zone. "
    words += "An hour without prices leaves a hole."
    return element("figure", drawn + element("figcaption", words, "note"))


def area_part(area: Area, alone: bool) -> str:
    counted = amounts.counted(len(area.hours), "hour")
    refused = f"{area.refused:,} refused" if area.refused else "none refused"
    name = "All hours" if alone else text(area.name or "in the folder itself")
    title = name + " " + element("span", f"{counted}, {refused}", "unit")
    body = element("div", hours_table(area) + area_prices(area), "area")
    return part("h2", title, body)


def overview(title: str, hours: Sequence[Judged], unread: Sequence[str]) -> str:
    """All that stands above the hours."""
    areas = areas_of(hours)
    body = count(title, hours, unread)
    body += part("h2", "Not read", "".join(element("p", f"✗ {text(fault)}") for fault in unread))
    body += part("h2", "Refused hours", refused_hours(areas))
    return body + "".join(area_part(area, len(areas) == 1) for area in areas)
