"""The limits of document 01 and its sums, in whole numbers and in its measures: tenths, cents, grains, microcents.
Explanations and pages are computed by them, next to the library. Verdicts and totals are the library's alone.
"""

from __future__ import annotations

from functools import cached_property
from typing import Iterator, NamedTuple

from . import hour

WHOLE = 100_000  # stands for 1 in PTDFs and in the LTA share
GRAINS_PER_CENT = 100_000
MICROCENTS_PER_CENT = 1_000_000
REPORT_ROOM = 176
INTUITIVE_SCRATCH = 324
INTUITIVE_PAIRS = 64
PROPOSAL_ROOM = 2573  # room that is enough for every proposal
SHEET_ROOM = 4352  # room that is enough for the branches of every sheet
SHORTFALL_ROOM = 1280  # numbers that are enough for the shortfalls of every hour
VERSIONS = {"case": (1, 2), "proposal": (1,), "families": (1,)}

# Least and greatest of each field that has limits of its own; an order's zone and a link's zones are held to the count.
LIMITS = {
    "zones": (1, 16),
    "branches": (0, 64),
    "links": (0, 64),
    "orders": (0, 512),
    "tolerance": (0, 1_000_000_000),
    "RAM": (-500_000, 500_000),
    "PTDF": (-200_000, 200_000),
    "capacity": (0, 100_000),
    "side": (0, 1),
    "quantity": (1, 100_000),
    "price": (-50_000, 400_000),
    "share": (0, WHOLE),
    "shadow price": (0, 1_000_000),
}
# Request S-12, in cents: a wider tolerance is read, and the hour not judged.
WIDEST_TOLERANCE = 10_000
# What the header of the largest case counts, and how many bytes a file of each kind then has.
LARGEST = {"version": VERSIONS["case"][-1], **{name: LIMITS[name][1] for name in ("zones", *hour.COUNTS)}}
LONGEST = {file: hour.demanded_length(file, LARGEST) for file in hour.HEADERS}
ZONE_PRICE = tuple(GRAINS_PER_CENT * limit for limit in LIMITS["price"])



class Branch(NamedTuple):
    ram: int
    ptdfs: tuple[int, ...]
    shadow: int


class Link(NamedTuple):
    source: int
    sink: int
    capacity: int
    contracted: int
    flow: int


class Order(NamedTuple):
    zone: int
    buys: bool
    quantity: int
    price: int
    volume: int

    @property
    def signed_volume(self) -> int:
        """Buys counted positive and sells negative."""
        return self.volume if self.buys else -self.volume


def outside(name: str, number: int) -> bool:
    least, greatest = LIMITS[name]
    return not least <= number <= greatest


def header_good(case: bytes) -> bool:
    """Whether none of 1 to 4 holds of a case."""
    counts = hour.case_counts(case)
    if not counts or case[:3] != hour.MARKS["case"] or counts["version"] not in VERSIONS["case"]:
        return False
    return not any(name in LIMITS and outside(name, number) for name, number in counts.items())


def cut(joined: bytes) -> tuple[bytes, bytes]:
    """A joined file's case and proposal, cut at the length that the header demands if it is good and all is there."""
    if header_good(joined):
        length = hour.demanded_length("case", hour.case_counts(joined))
        if length <= len(joined):
            return joined[:length], joined[length:]
    return joined, b""


class Sums:
    """An hour whose files have the lengths that they should, and the sums of document 01 by which it is explained. Each
    is found when it is asked for, so that an hour with a wrong field can be looked at as far as others go.
    """

    def __init__(self, case: bytes, proposal: bytes) -> None:
        counts = hour.case_counts(case)
        rows = hour.whole_records("case", case, counts)[0]
        plan = hour.whole_records("proposal", proposal, counts)[0]
        opening = hour.header_values("proposal", proposal)
        self.share, self.system = opening["share"], opening["system"]
        self.zones, self.tolerance = counts["zones"], counts["tolerance"] * MICROCENTS_PER_CENT
        self.branches = [Branch(row[0], row[1:], shadow) for row, (shadow,) in zip(rows["branch"], plan["shadow"])]
        self.version = counts["version"]
        # A row's last field is what is contracted; in version 1 that is the capacity.
        self.links = [Link(row[0], row[1], row[2], row[-1], flow) for row, (flow,) in zip(rows["link"], plan["flow"])]
        self.orders = [
            Order(zone, side == 0, quantity, price, volume)
            for (zone, side, quantity, price), (volume,) in zip(rows["order"], plan["volume"])
        ]

    # Rules 1, 2, 4 and 5.

    @cached_property
    def net(self) -> list[int]:
        net = [0] * self.zones
        for order in self.orders:
            net[order.zone] += order.signed_volume
        return net

    @cached_property
    def lta(self) -> list[int]:
        lta = [0] * self.zones
        for link in self.links:
            lta[link.sink] += link.flow
            lta[link.source] -= link.flow
        return lta

    @cached_property
    def flow_based(self) -> list[int]:
        return [net - lta for net, lta in zip(self.net, self.lta)]

    @cached_property
    def loads(self) -> list[int]:
        return [sum(ptdf * part for ptdf, part in zip(branch.ptdfs, self.flow_based)) for branch in self.branches]

    @cached_property
    def branch_rooms(self) -> list[int]:
        return [(WHOLE - self.share) * branch.ram for branch in self.branches]

    @cached_property
    def uses(self) -> list[int]:
        return [WHOLE * link.flow for link in self.links]

    @cached_property
    def link_rooms(self) -> list[int]:
        return [self.share * link.capacity for link in self.links]

    # Rule 6, and what a link's prices differ by.

    @cached_property
    def prices(self) -> list[int]:
        return [
            GRAINS_PER_CENT * self.system + sum(branch.ptdfs[zone] * branch.shadow for branch in self.branches)
            for zone in range(self.zones)
        ]

    @cached_property
    def spreads(self) -> list[int]:
        return [self.prices[link.sink] - self.prices[link.source] for link in self.links]

    # Rules 8 to 10: what the gap comes from.

    @cached_property
    def surpluses(self) -> list[int]:
        return [max(0, order.quantity * self.gain(order)) for order in self.orders]

    def gain(self, order: Order) -> int:
        """What an order earns for each tenth of a MWh at its zone's price."""
        return (1 if order.buys else -1) * (GRAINS_PER_CENT * order.price - self.prices[order.zone])

    @cached_property
    def branch_total(self) -> int:
        return GRAINS_PER_CENT * sum(branch.ram * branch.shadow for branch in self.branches)

    @cached_property
    def link_total(self) -> int:
        """By capacities, as the bound takes it; owed is by contracted volumes, request S-4."""
        return sum(link.capacity * max(0, spread) for link, spread in zip(self.links, self.spreads))

    @cached_property
    def network(self) -> int:
        """Request S-6: without links the branch total alone, even a negative one."""
        return max(self.branch_total, self.link_total) if self.links else self.branch_total

    def shortfalls(self) -> Iterator[tuple[str, int, int]]:
        """Request S-14, in file order: kind, place, and hundred-thousandths of a microcent."""
        for place, (order, surplus) in enumerate(zip(self.orders, self.surpluses)):
            yield "order", place, WHOLE * (surplus - order.volume * self.gain(order))
        for place, (branch, load, room) in enumerate(zip(self.branches, self.loads, self.branch_rooms)):
            yield "branch", place, WHOLE * (room - load) * branch.shadow
        for place, (link, use, room, spread) in enumerate(zip(self.links, self.uses, self.link_rooms, self.spreads)):
            yield "link", place, room * max(0, spread) - use * spread

    def leads(self) -> Iterator[tuple[str, int]]:
        """What each total is behind the larger one, weighed by its share, in the same measure: the rest of the gap."""
        yield "branch total", (WHOLE - self.share) * (self.network - self.branch_total)
        yield "link total", self.share * (self.network - self.link_total)
