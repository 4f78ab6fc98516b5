"""What is wrong with an hour, in words: for each row of the verdict table and each place within it the field, where it
stands, its value and its limit. Computed next to the library, in the table's order. The first cause is held to the
library's answer: where the two disagree there is no explanation, only that.
"""

from __future__ import annotations

import functools
import struct
from dataclasses import dataclass
from typing import Callable, Iterator, Mapping, Sequence

from . import amounts, hour, library, numbers, rules
from .amounts import counted

COUNT_FIELDS = ("zones", "branches", "links", "orders")

Counts = Mapping[str, int]


class Disagreement(Exception):
    """The explanation's own reading gives another outcome than the library. The library's is the verdict."""

    def __init__(self, judged: str, found: str) -> None:
        super().__init__(
            f"DISAGREEMENT: the library answers {judged}, and the reading next to it gives {found}; "
            "the library's answer is the verdict, and there is no explanation"
        )


@dataclass(frozen=True)
class Field:
    """A field of an explanation: what it is, where it stands, its value, and what it is held to."""

    file: str
    offset: int
    size: int
    name: str
    value: str
    limit: str = ""

    def place(self) -> str:
        return f"offset {self.offset} (0x{self.offset:x}) of the {called(self.file)}"


@dataclass(frozen=True)
class Explanation:
    """Number and index as the verdict has them, place and cause in words, and the fields, the one at fault first."""

    number: int
    index: int
    place: str
    cause: str
    fields: tuple[Field, ...] = ()

    @property
    def words(self) -> str:
        return f"{self.number}{', ' + self.place if self.place else ''}: {self.cause}"


# The cause and the fields of a fault within a row of the case.
Fault = tuple[str, tuple[Field, ...]]


def called(file: str) -> str:
    """What people call a file."""
    return hour.CALLED.get(file, file)


def field_of(
    file: str, kind: str, index: int, position: int, counts: Counts, value: str, limit: str = ""
) -> Field:
    """The field at a position of a record, named as people say it."""
    fields = hour.record_fields(kind, counts)
    name, code = fields[position]
    if name == "PTDF":
        name = f"PTDF of zone {position - 1}"
    offset = hour.offsets_from(hour.record_offset(kind, index, counts), fields)[position]
    owner = hour.OWNERS.get(kind, kind)
    return Field(file, offset, struct.calcsize("<" + code), f"{name}, {owner} {index}", value, limit)


def header_field(file: str, name: str, value: str, limit: str = "") -> Field:
    fields = (("mark", "3s"),) + hour.HEADERS[file]
    names = [other for other, _ in fields]
    at = names.index(name)
    size = struct.calcsize("<" + fields[at][1])
    shown = {"share": "LTA share", "system": "system price"}.get(name, name)
    return Field(file, hour.offsets_from(0, fields)[at], size, shown, value, limit)


def stored(number: int, shown: str) -> str:
    """A value as the bytes hold it, and as it is read where that says more."""
    plain = f"{number:,}"
    return plain if plain == shown else f"{plain} ({shown})"


def over_or_under(number: int, least: int, greatest: int, shown: Callable[[int], str]) -> str:
    """'X is over Y, by Z' or the same of under."""
    if number > greatest:
        return f"{shown(number)} is over {shown(greatest)}, by {shown(number - greatest)}"
    return f"{shown(number)} is under {shown(least)}, by {shown(least - number)}"


def limit_words(least: int, greatest: int, shown: Callable[[int], str]) -> str:
    return f"{shown(least)} to {shown(greatest)}"


def euros_per_mwh(cents: int) -> str:
    return f"{amounts.cents(cents)} euros/MWh"


def zone_price_shown(grains: int) -> str:
    return f"{amounts.grains(grains)} euros/MWh"


# Each field's measure.
SHOWN: dict[str, Callable[[int], str]] = {
    "RAM": amounts.mw,
    "PTDF": amounts.factor,
    "capacity": amounts.mw,
    "quantity": amounts.mwh,
    "price": euros_per_mwh,
    "shadow price": euros_per_mwh,
    "tolerance": lambda cents: f"{amounts.cents(cents)} euros",
}


# Whole files: 1 to 3, 5, 9 to 12, and 16.


def short_file(number: int, file: str, data: bytes) -> Iterator[Explanation]:
    size = hour.header_layout(file).size
    if len(data) >= size:
        return
    cause = f"the {called(file)} has {counted(len(data), 'byte')}, and its header alone takes {size}"
    if not data:
        cause = f"the {called(file)} is empty, and its header alone takes {size} bytes"
    end = Field(file, len(data), 0, "end of the file", counted(len(data), "byte"), f"at least {size} bytes")
    yield Explanation(number, 0, "", cause, (end,))


def wrong_mark(number: int, file: str, data: bytes) -> Iterator[Explanation]:
    due, mark = hour.MARKS[file], data[:3]
    if mark == due:
        return
    other = {mark: name for name, mark in hour.MARKS.items()}.get(mark)
    shown = mark.decode("ascii") if all(0x21 <= byte <= 0x7E for byte in mark) else f"the bytes {mark.hex(' ')}"
    cause = f"the {called(file)} begins with {shown}, not {due.decode()}"
    if other is not None:
        cause += f"; {shown} is a {called(other)}'s mark"
    field = header_field(file, "mark", mark.hex(" "), f"{due.hex(' ')}, {due.decode()}")
    yield Explanation(number, 0, "", cause, (field,))


def wrong_version(number: int, file: str, data: bytes) -> Iterator[Explanation]:
    (version,) = struct.unpack_from("<H", data, 3)
    due = rules.VERSIONS[file]
    if version in due:
        return
    none_of = f"neither {' nor '.join(map(str, due))}" if len(due) > 1 else f"not {due[0]}"
    field = header_field(file, "version", f"{version:,}", " or ".join(map(str, due)))
    yield Explanation(number, 0, "", f"the {called(file)}'s version is {version:,}, {none_of}", (field,))


def length_sum(file: str, counts: Counts) -> str:
    """How the demanded length comes about: '14 + 2 branches of 16 bytes + ..'."""
    terms = [str(hour.header_layout(file).size)]
    for kind, name in hour.RECORDS[file]:
        size = hour.record_layout(kind, counts).size
        noun = {"volume": "volume", "flow": "flow", "shadow": "shadow price"}.get(kind, kind)
        terms.append(f"{counted(counts[name], noun)} of {size}")
    return " + ".join(terms)


def wrong_length(number: int, file: str, data: bytes, counts: Counts) -> Iterator[Explanation]:
    due = hour.demanded_length(file, counts)
    if len(data) == due:
        return
    demanding = "its header demands" if file == "case" else "the case demands"
    demanded = f"{demanding} {due:,} = {length_sum(file, counts)}"
    cause = f"the {called(file)} has {counted(len(data), 'byte')}, and {demanded}: "
    if len(data) > due:
        cause += f"{len(data) - due:,} too many"
    else:
        kind, place = str(hour.whole_records(file, data, counts)[1]).split()
        cause += f"{due - len(data):,} missing, from { {'shadow': 'shadow price'}.get(kind, kind)} {place} on"
    end = Field(file, min(len(data), due), 0, "end of the file", counted(len(data), "byte"), counted(due, "byte"))
    yield Explanation(number, 0, "", cause, (end,))


# Fields with limits of their own: 4, 6 to 8, 14.


def wrong_header(counts: Counts, names: Sequence[str]) -> Iterator[Explanation]:
    for name in names:
        if rules.outside(name, counts[name]):
            shown, limits = SHOWN.get(name, lambda number: f"{number:,}"), rules.LIMITS[name]
            value = stored(counts[name], shown(counts[name]))
            field = header_field("case", name, value, limit_words(*limits, shown))
            yield Explanation(4, field.offset, name, over_or_under(counts[name], *limits, shown), (field,))


def limited(file: str, kind: str, index: int, position: int, counts: Counts, number: int) -> Iterator[Fault]:
    """The fault of a field outside its own limits."""
    name = hour.record_fields(kind, counts)[position][0]
    if not rules.outside(name, number):
        return
    shown, limits = SHOWN[name], rules.LIMITS[name]
    field = field_of(file, kind, index, position, counts, stored(number, shown(number)), limit_words(*limits, shown))
    label = f"PTDF of zone {position - 1}:" if name == "PTDF" else name
    yield f"{label} {over_or_under(number, *limits, shown)}", (field,)


def unknown_zone(name: str, zone: int, index: int, kind: str, position: int, counts: Counts) -> Iterator[Fault]:
    """The fault of a zone that the case does not have."""
    if zone >= counts["zones"]:
        known = f"0 to {counts['zones'] - 1}"
        cause = f"{name} {zone} is unknown: the case has {counted(counts['zones'], 'zone')}, {known}"
        yield cause, (field_of("case", kind, index, position, counts, str(zone), known),)


def branch_faults(index: int, row: Sequence[int], counts: Counts) -> Iterator[Fault]:
    for position, number in enumerate(row):
        yield from limited("case", "branch", index, position, counts, number)


def link_faults(index: int, rows: Sequence[Sequence[int]], counts: Counts) -> Iterator[Fault]:
    source, sink, capacity = rows[index][:3]
    yield from unknown_zone("from zone", source, index, "link", 0, counts)
    if source != sink and max(source, sink) < counts["zones"]:
        yield from repeated_pair(index, rows, counts)
    yield from unknown_zone("to zone", sink, index, "link", 1, counts)
    if source == sink < counts["zones"]:
        field = field_of("case", "link", index, 1, counts, str(sink), "another zone than the from zone")
        yield f"it leads from zone {source} to itself", (field,)
    yield from limited("case", "link", index, 2, counts, capacity)
    if not rules.outside("capacity", capacity):
        yield from contracted_fault(index, rows[index], counts)


def repeated_pair(index: int, rows: Sequence[Sequence[int]], counts: Counts) -> Iterator[Fault]:
    """The fault of two zones that an earlier link has."""
    source, sink = rows[index][:2]
    earlier = [tuple(row[:2]) for row in rows[:index]]
    if (source, sink) in earlier:
        first, zones = earlier.index((source, sink)), f"{source}, and to zone {sink}"
        field = field_of("case", "link", index, 0, counts, zones, "a pair that no earlier link has")
        other = field_of("case", "link", first, 0, counts, zones)
        yield f"the pair {source} to {sink} repeats link {first}", (field, other)


def contracted_fault(index: int, row: Sequence[int], counts: Counts) -> Iterator[Fault]:
    """Request S-4: in a case of version 2 no more than the capacity is contracted."""
    capacity, contracted = row[2], row[-1]
    if contracted <= capacity:
        return
    cause = f"contracted {amounts.mw(contracted)} is over the link's capacity of {amounts.mw(capacity)}, "
    cause += f"by {amounts.mw(contracted - capacity)}"
    limit = f"at most {amounts.mw(capacity)}"
    field = field_of("case", "link", index, 3, counts, stored(contracted, amounts.mw(contracted)), limit)
    yield cause, (field, field_of("case", "link", index, 2, counts, stored(capacity, amounts.mw(capacity))))


def order_faults(index: int, row: Sequence[int], counts: Counts) -> Iterator[Fault]:
    zone, side, quantity, price = row
    yield from unknown_zone("zone", zone, index, "order", 0, counts)
    if side not in (0, 1):
        field = field_of("case", "order", index, 1, counts, str(side), "0 buys, 1 sells")
        yield f"side {side} is neither 0, which buys, nor 1, which sells", (field,)
    yield from limited("case", "order", index, 2, counts, quantity)
    yield from limited("case", "order", index, 3, counts, price)


def explained(number: int, kind: str, index: int, faults: Iterator[Fault]) -> Iterator[Explanation]:
    """The faults of a record, each at its offset."""
    for cause, fields in faults:
        yield Explanation(number, fields[0].offset, f"{kind} {index}", cause, fields)


# 16 to 18: the family list, request S-11.

MOST_STEPS = 16  # of a circle that words name


def parent_field(child: int, parent: int, counts: Counts, limit: str = "") -> Field:
    return field_of("families", "parent", child, 0, counts, f"{parent:,}", limit)


def steps_up(rows: Sequence[int], order: int) -> list[int] | None:
    """The orders from one up to itself, it last too; None where no steps lead back."""
    steps = [order]
    while rows[steps[-1]] != hour.NO_PARENT and len(steps) <= len(rows):
        steps.append(rows[steps[-1]])
        if steps[-1] == order:
            return steps
    return None


# 21 to 28: the clearing.

MOST_DECIMALS = 9  # of a per cent in which two fractions of quantities up to 100,000 differ


def fractions_apart(one: tuple[int, int], other: tuple[int, int]) -> list[str]:
    """Two fractions, each a volume and a quantity, in per cent with as many decimals as tell them apart."""
    for decimals in range(3, MOST_DECIMALS + 1):
        parts = (100 * 10**decimals * volume // quantity for volume, quantity in (one, other))
        shown = [amounts.scaled(part, decimals, 1) for part in parts]
        if shown[0] != shown[1]:
            break
    return [f"{number} %" for number in shown]


# The table.


@dataclass(frozen=True)
class Row:
    """A row of the verdict table: its name here, its number, and the rows that must pass before it can be asked."""

    name: str
    number: int
    needs: tuple[str, ...] = ()


# In the order of asking. Row 4 stands twice, since a wrong tolerance leaves the rest of the case readable.
ROWS = (
    Row("case_short", 1),
    Row("case_mark", 2, ("case_short",)),
    Row("case_version", 3, ("case_mark",)),
    Row("counts_outside", 4, ("case_version",)),
    Row("tolerance_outside", 4, ("case_version",)),
    Row("case_length", 5, ("counts_outside",)),
    Row("branches", 6, ("case_length",)),
    Row("links", 7, ("case_length",)),
    Row("orders", 8, ("case_length",)),
    Row("proposal_short", 9),
    Row("proposal_mark", 10, ("proposal_short",)),
    Row("proposal_version", 11, ("proposal_mark",)),
    Row("proposal_length", 12, ("case_length", "proposal_version")),
    Row("share", 13, ("proposal_version",)),
    Row("shadow_prices", 14, ("proposal_length",)),
    Row("wide_tolerance", 15, ("tolerance_outside",)),
    Row("family_list", 16, ("case_length",)),
    Row("parents", 17, ("family_list",)),
    Row("circles", 18, ("parents",)),
    Row("volumes", 21, ("orders", "proposal_length")),
    Row("fractions", 28, ("orders", "proposal_length", "circles")),
    Row("balance", 22, ("orders", "proposal_length")),
    Row("share_without_link", 27, ("case_length", "share")),
    Row("link_rule", 23, ("links", "proposal_length", "share")),
    Row("branch_rule", 24, ("branches", "links", "orders", "proposal_length", "share")),
    Row("zone_prices", 25, ("branches", "shadow_prices")),
    # The gap measures a clearing: of volumes, flows and prices that are none it says nothing.
    Row("gap", 26, ("volumes", "balance", "link_rule", "branch_rule", "zone_prices")),
)


class Table:
    """The verdict table over an hour's files: each row gives what is wrong, place by place. A judgement that reports a
    gap may be given; otherwise the library is asked where the gap is.
    """

    def __init__(
        self, case: bytes, proposal: bytes, families: bytes | None = None, judgement: library.Judgement | None = None
    ) -> None:
        self.case, self.proposal, self.families, self.judgement = case, proposal, families, judgement
        self.passed: set[str] = set()
        self.unasked: list[int] = []

    def causes(self) -> Iterator[Explanation]:
        """Every cause, in the table's order. A row is not asked if something that it needs did not pass."""
        for row in ROWS:
            if self.families is None and row.number in numbers.FAMILY_VERDICTS:
                continue
            if not self.passed.issuperset(self.needs(row)):
                self.unasked.append(row.number)
                continue
            passes, faults = True, getattr(self, row.name)
            for cause in faults():
                passes = False
                yield cause
            if passes:
                self.passed.add(row.name)

    def needs(self, row: Row) -> tuple[str, ...]:
        """A joined file whose case cannot be cut off is all case: then an empty proposal says nothing."""
        return ("case_length",) if row.name == "proposal_short" and not self.proposal else row.needs

    @functools.cached_property
    def counts(self) -> Counts:
        return hour.case_counts(self.case)

    @functools.cached_property
    def lta_share(self) -> int:
        return hour.header_values("proposal", self.proposal)["share"]

    def records(self, file: str, data: bytes, kind: str) -> list[tuple[int, ...]]:
        return hour.whole_records(file, data, self.counts)[0][kind]

    def in_case(self, kind: str, index: int, position: int, value: str, limit: str = "") -> Field:
        return field_of("case", kind, index, position, self.counts, value, limit)

    def in_proposal(self, kind: str, index: int, value: str, limit: str = "") -> Field:
        return field_of("proposal", kind, index, 0, self.counts, value, limit)

    # 1 to 8.

    def case_short(self) -> Iterator[Explanation]:
        return short_file(1, "case", self.case)

    def case_mark(self) -> Iterator[Explanation]:
        return wrong_mark(2, "case", self.case)

    def case_version(self) -> Iterator[Explanation]:
        return wrong_version(3, "case", self.case)

    def counts_outside(self) -> Iterator[Explanation]:
        return wrong_header(self.counts, COUNT_FIELDS)

    def tolerance_outside(self) -> Iterator[Explanation]:
        return wrong_header(self.counts, ("tolerance",))

    def case_length(self) -> Iterator[Explanation]:
        return wrong_length(5, "case", self.case, self.counts)

    def branches(self) -> Iterator[Explanation]:
        for index, row in enumerate(self.records("case", self.case, "branch")):
            yield from explained(6, "branch", index, branch_faults(index, row, self.counts))

    def links(self) -> Iterator[Explanation]:
        rows = self.records("case", self.case, "link")
        for index in range(len(rows)):
            yield from explained(7, "link", index, link_faults(index, rows, self.counts))

    def orders(self) -> Iterator[Explanation]:
        for index, row in enumerate(self.records("case", self.case, "order")):
            yield from explained(8, "order", index, order_faults(index, row, self.counts))

    # 9 to 14.

    def proposal_short(self) -> Iterator[Explanation]:
        return short_file(9, "proposal", self.proposal)

    def proposal_mark(self) -> Iterator[Explanation]:
        return wrong_mark(10, "proposal", self.proposal)

    def proposal_version(self) -> Iterator[Explanation]:
        return wrong_version(11, "proposal", self.proposal)

    def proposal_length(self) -> Iterator[Explanation]:
        return wrong_length(12, "proposal", self.proposal, self.counts)

    def share(self) -> Iterator[Explanation]:
        share, limits = self.lta_share, rules.LIMITS["share"]
        if rules.outside("share", share):
            field = self.share_field(limit_words(*limits, amounts.per_cent))
            yield Explanation(13, 0, "", f"the LTA share {over_or_under(share, *limits, amounts.per_cent)}", (field,))

    def share_field(self, limit: str = "") -> Field:
        return header_field("proposal", "share", stored(self.lta_share, amounts.per_cent(self.lta_share)), limit)

    def shadow_prices(self) -> Iterator[Explanation]:
        for index, (shadow,) in enumerate(self.records("proposal", self.proposal, "shadow")):
            yield from explained(14, "branch", index, limited("proposal", "shadow", index, 0, self.counts, shadow))

    # 15: the tolerance, which row 4 took, request S-12.

    def wide_tolerance(self) -> Iterator[Explanation]:
        tolerance, shown = self.counts["tolerance"], SHOWN["tolerance"]
        if tolerance > rules.WIDEST_TOLERANCE:
            widest = shown(rules.WIDEST_TOLERANCE)
            cause = f"the tolerance of {shown(tolerance)} is over {widest}, the widest that is judged, "
            cause += f"by {shown(tolerance - rules.WIDEST_TOLERANCE)}"
            yield Explanation(15, 0, "", cause, (self.tolerance_field(f"at most {widest}"),))

    def tolerance_field(self, limit: str) -> Field:
        tolerance = self.counts["tolerance"]
        return header_field("case", "tolerance", stored(tolerance, SHOWN["tolerance"](tolerance)), limit)

    # 16 to 18.

    @functools.cached_property
    def parent_rows(self) -> list[int]:
        """The parents that the list names, as stored."""
        return [parent for (parent,) in self.records("families", self.families or b"", "parent")]

    def family_list(self) -> Iterator[Explanation]:
        """The first that is wrong with mark, version and length: all of them are 16."""
        data = self.families or b""
        asked: tuple[Callable[[], Iterator[Explanation]], ...] = (
            lambda: short_file(16, "families", data),
            lambda: wrong_mark(16, "families", data),
            lambda: wrong_version(16, "families", data),
            lambda: wrong_length(16, "families", data, self.counts),
        )
        yield from next((found for found in (list(ask()) for ask in asked) if found), [])

    def parents(self) -> Iterator[Explanation]:
        known = f"0 to {self.counts['orders'] - 1}"
        for child, parent in enumerate(self.parent_rows):
            if parent >= self.counts["orders"] and parent != hour.NO_PARENT:
                cause = f"its parent, order {parent:,}, does not exist: the case has "
                cause += f"{counted(self.counts['orders'], 'order')}, {known}"
                field = parent_field(child, parent, self.counts, f"{known}, or {hour.NO_PARENT:,} for none")
                yield Explanation(17, child, f"order {child}", cause, (field,))

    def circles(self) -> Iterator[Explanation]:
        """Each circle once, at its first order."""
        for order in range(len(self.parent_rows)):
            steps = steps_up(self.parent_rows, order)
            if steps is None or min(steps) < order:
                continue
            named = ", ".join(map(str, steps))
            if len(steps) > MOST_STEPS:
                named = ", ".join(map(str, steps[: MOST_STEPS - 2])) + f", .. {steps[-2]}, {order}"
                named += f", after {len(steps) - 1} steps"
            fields = tuple(parent_field(child, self.parent_rows[child], self.counts) for child in steps[:-1])
            yield Explanation(18, order, "", f"order {order} leads back to itself: {named}", fields)

    # 21 to 28, as the values stand.

    @functools.cached_property
    def judged_files(self) -> tuple[bytes, bytes]:
        """The files with what has one remedy mended: no tolerance over the widest, and without links no share."""
        tolerance = min(self.counts["tolerance"], rules.WIDEST_TOLERANCE)
        share = self.lta_share if self.counts["links"] else 0
        case = hour.with_header("case", self.case, "tolerance", tolerance)
        return case, hour.with_header("proposal", self.proposal, "share", share)

    @functools.cached_property
    def sums(self) -> rules.Sums:
        return rules.Sums(*self.judged_files)

    def volumes(self) -> Iterator[Explanation]:
        for index, order in enumerate(self.sums.orders):
            if order.volume > order.quantity:
                cause = f"volume {amounts.mwh(order.volume)} is over the order's quantity of "
                cause += f"{amounts.mwh(order.quantity)}, by {amounts.mwh(order.volume - order.quantity)}"
                fields = self.volume_fields(index, f"at most {amounts.mwh(order.quantity)}")
                yield Explanation(21, index, f"order {index}", cause, fields)

    def volume_fields(self, index: int, limit: str = "") -> tuple[Field, Field]:
        """An order's volume and its quantity."""
        order = self.sums.orders[index]
        volume = self.in_proposal("volume", index, stored(order.volume, amounts.mwh(order.volume)), limit)
        return volume, self.in_case("order", index, 2, stored(order.quantity, amounts.mwh(order.quantity)))

    def fractions(self) -> Iterator[Explanation]:
        """Request S-11."""
        for child, parent in enumerate(self.parent_rows):
            if parent == hour.NO_PARENT:
                continue
            one, other = self.sums.orders[child], self.sums.orders[parent]
            if one.volume * other.quantity <= other.volume * one.quantity:
                continue
            ahead, behind = fractions_apart((one.volume, one.quantity), (other.volume, other.quantity))
            cause = f"order {child}: {ahead} of {amounts.mwh(one.quantity)} is accepted, and of its parent, "
            cause += f"order {parent}: {behind} of {amounts.mwh(other.quantity)}"
            # The most that the parent allows, cut to a tenth.
            most = amounts.mwh(other.volume * one.quantity // other.quantity)
            own = self.volume_fields(child, f"at most {most}")
            fields = (*own, parent_field(child, parent, self.counts), *self.volume_fields(parent))
            yield Explanation(28, child, "", cause, fields)

    def balance(self) -> Iterator[Explanation]:
        total, orders = sum(self.sums.net), self.sums.orders
        if total:
            bought = sum(order.volume for order in orders if order.buys)
            sold = sum(order.volume for order in orders if not order.buys)
            more = "too much is bought" if total > 0 else "too much is sold"
            cause = f"the net positions sum to {amounts.mwh(total)} and not to 0: {amounts.mwh(bought)} are bought and "
            cause += f"{amounts.mwh(sold)} sold, {more}"
            start, size = hour.record_offset("volume", 0, self.counts), 4 * len(orders)
            name = f"the volumes of all {counted(len(orders), 'order')}"
            value = f"bought less sold {amounts.mwh(total)}"
            yield Explanation(22, 0, "", cause, (Field("proposal", start, size, name, value, amounts.mwh(0)),))

    def share_without_link(self) -> Iterator[Explanation]:
        """Request S-6."""
        if not self.counts["links"] and self.lta_share:
            share = amounts.per_cent(self.lta_share)
            cause = f"the case has no link, so there is no LTA domain for a share of {share}"
            fields = self.share_field(amounts.per_cent(0)), header_field("case", "links", "0")
            yield Explanation(27, 0, "", cause, fields)

    def link_rule(self) -> Iterator[Explanation]:
        for index, (link, use, room) in enumerate(zip(self.sums.links, self.sums.uses, self.sums.link_rooms)):
            if use > room:
                cause = f"flow {amounts.mw(link.flow)} is over {amounts.per_cent(self.sums.share)} of "
                cause += f"{amounts.mw(link.capacity)} = {amounts.load_mw(room)}, by {amounts.load_mw(use - room)}"
                limit = f"at most {amounts.load_mw(room)}"
                flow = self.in_proposal("flow", index, stored(link.flow, amounts.mw(link.flow)), limit)
                capacity = self.in_case("link", index, 2, stored(link.capacity, amounts.mw(link.capacity)))
                yield Explanation(23, index, f"link {index}", cause, (flow, capacity, self.share_field()))

    def branch_rule(self) -> Iterator[Explanation]:
        rest = amounts.per_cent(rules.WHOLE - self.sums.share)
        for index, (branch, load, room) in enumerate(zip(self.sums.branches, self.sums.loads, self.sums.branch_rooms)):
            if load > room:
                cause = f"load {amounts.load_mw(load)} is over {rest} of {amounts.mw(branch.ram)} = "
                cause += f"{amounts.load_mw(room)}, by {amounts.load_mw(load - room)}"
                limit = f"load at most {amounts.load_mw(room)}"
                ram = self.in_case("branch", index, 0, stored(branch.ram, amounts.mw(branch.ram)), limit)
                fields = (ram, self.share_field(), *self.load_parts(index))
                yield Explanation(24, index, f"branch {index}", cause, fields)

    def load_parts(self, index: int) -> Iterator[Field]:
        """The PTDFs of a branch that its load comes from."""
        for zone, (ptdf, part) in enumerate(zip(self.sums.branches[index].ptdfs, self.sums.flow_based)):
            if ptdf and part:
                value = f"{stored(ptdf, amounts.factor(ptdf))} times the flow-based part {amounts.mw(part)}"
                yield self.in_case("branch", index, 1 + zone, f"{value} = {amounts.load_mw(ptdf * part)}")

    def zone_prices(self) -> Iterator[Explanation]:
        least, greatest = rules.ZONE_PRICE
        for zone, price in enumerate(self.sums.prices):
            if not least <= price <= greatest:
                system = self.sums.system
                limit = f"zone price {limit_words(least, greatest, zone_price_shown)}"
                opening = header_field("proposal", "system", stored(system, euros_per_mwh(system)), limit)
                cause = f"price {over_or_under(price, least, greatest, zone_price_shown)}"
                yield Explanation(25, zone, f"zone {zone}", cause, (opening, *self.price_parts(zone)))

    def price_parts(self, zone: int) -> Iterator[Field]:
        """The shadow prices that a zone's price comes from, next to the system price."""
        for index, branch in enumerate(self.sums.branches):
            if branch.shadow and branch.ptdfs[zone]:
                value = stored(branch.shadow, euros_per_mwh(branch.shadow))
                value += f" times the PTDF {amounts.factor(branch.ptdfs[zone])}"
                value += f" = {zone_price_shown(branch.shadow * branch.ptdfs[zone])}"
                yield self.in_proposal("shadow", index, value)

    @functools.cached_property
    def reported_gap(self) -> int:
        """The gap that the library reports; families take no part in it."""
        if self.judgement is not None and self.judgement.gap is not None:
            return self.judgement.gap
        asked = library.judge(*self.judged_files)
        if asked.gap is None:
            raise Disagreement("{} {}".format(*asked.verdict), "a gap")
        return asked.gap

    def gap(self) -> Iterator[Explanation]:
        if self.reported_gap > self.sums.tolerance:
            gap, tolerance = amounts.microcents(self.reported_gap), amounts.microcents(self.sums.tolerance)
            cause = f"the gap of {gap} euros is over the tolerance of {tolerance}"
            if self.sums.tolerance:
                cause += f", by {amounts.microcents(self.reported_gap - self.sums.tolerance)}"
            yield Explanation(26, 0, "", cause, (self.tolerance_field(f"gap at most {tolerance} euros"),))

    def first(self) -> Explanation:
        """The first cause, or that there is none: the outcome as it is read here."""
        for cause in self.causes():
            return cause
        return self.accepted()

    def accepted(self) -> Explanation:
        gap, tolerance = amounts.microcents(self.reported_gap), amounts.microcents(self.sums.tolerance)
        return Explanation(0, 0, "", f"accepted, with a gap of {gap} euros within the tolerance of {tolerance}")


def case_cause(case: bytes) -> Explanation | None:
    """Why a case is not readable, None where it is."""
    # With an empty proposal a readable case is refused by 9.
    found = Table(case, b"").first()
    return found if found.number < 9 else None


def explain(
    case: bytes,
    proposal: bytes,
    judgement: library.Judgement | None = None,
    room: int = rules.REPORT_ROOM,
    families: bytes | None = None,
) -> Explanation:
    """The library's verdict in words, with a family list if there is one. Without a judgement the library is asked for
    one.
    """
    case, proposal = bytes(case), bytes(proposal)
    families = None if families is None else bytes(families)
    if judgement is None:
        judgement = library.judge(case, proposal, families, room)
    if room < rules.REPORT_ROOM:
        cause = f"the report buffer has {counted(room, 'byte')}, and a report may take {rules.REPORT_ROOM}"
        return agreed(judgement, Explanation(30, 0, "", cause))
    table = Table(case, proposal, families, judgement)
    found = agreed(judgement, table.first())
    if judgement.prices and judgement.prices != tuple(table.sums.prices):
        raise Disagreement(f"prices {judgement.prices}", f"{tuple(table.sums.prices)}")
    return found


def agreed(judgement: library.Judgement, found: Explanation) -> Explanation:
    """The explanation, if number and index are the library's."""
    if judgement.verdict != (found.number, found.index):
        raise Disagreement("{} {}".format(*judgement.verdict), f"{found.number} {found.index}")
    return found
