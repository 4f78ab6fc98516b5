#!/usr/bin/python3
"""Clears made hours with the LP solver HiGHS, and stores them for tests/stored_cleared.

    tools/clear_hours.py [--hours N] [--seed S] [--force] FILE

It needs scipy, which has HiGHS: Debian's python3-scipy. tests/stored_cleared reads the stored file and needs no scipy.

An hour is a market on a small grid: zones, branches with margins and PTDFs, links with capacities, orders. A linear
program finds the volumes, flows and LTA share of greatest welfare, and its duals are the prices. Ties are frequent:
prices are round, branches repeat, capacities and margins are zero. Everything is rounded to the units of document 01.
Where the rounded numbers break a rule, those of margins that are a little smaller are rounded in their place, so that
there is room. The prices and the optimum are always those of the true margins.

FILE is a compressed list, a line for each hour: its case and its proposal in hexadecimal digits, and the optimum in
microcents. HiGHS calculates in floats and keeps rows and prices to TOLERANCE. Both are checked here in fractions: the
clearing keeps every row to TOLERANCE, and rule 10's bound at HiGHS's prices exceeds its optimum by at most `short`.
With scipy 1.10.1 of Debian 12, the same seed gave the same bytes in each run.
"""

from __future__ import annotations

import argparse
import lzma
import os
import random
import struct
import sys
from collections.abc import Iterable, Iterator, Sequence
from fractions import Fraction
from typing import Any

try:
    from scipy.optimize import linprog  # type: ignore[import] # scipy has no types, and may be missing
except ImportError:
    linprog = None

MISSING = "scipy is missing: install Debian's python3-scipy and run this with /usr/bin/python3"

# HiGHS's primal and dual feasibility, as scipy sets them: rows hold to so many tenths, prices to so many cents.
TOLERANCE = 1e-7
# Tenths by which margins are made smaller where the rounding needs room.
SPARE = 3

BUYS, SELLS = 0, 1
# Hundred-thousandths in 1, and grains in a cent.
ONE = 100_000


class Market:
    """Zones; branches: RAM, PTDFs; links: from, to, capacity; orders: zone, side, quantity, price. In 01's units."""

    def __init__(self, zones: int, branches: Sequence[tuple[int, Sequence[int]]], links: Sequence[tuple[Any, ...]], orders: Sequence[tuple[Any, ...]]) -> None:
        self.zones, self.branches, self.links, self.orders = zones, branches, links, orders

    @classmethod
    def made(cls, draw: random.Random) -> Market:
        count = draw.randint(2, 8)
        zones = range(count)
        branches = [
            (draw.choice([0, 50, 500, 1_000, 2_500, draw.randint(0, 9_000)]), made_ptdfs(draw, count))
            for _ in range(draw.randint(0, 8))
        ]
        if branches and draw.random() < 0.3:
            branches.append(draw.choice(branches))
        pairs = [(one, other) for one in zones for other in zones if one != other]
        chosen = draw.sample(pairs, min(len(pairs), draw.choice([0, 1, 2, 4, 8])))
        links = [(*pair, draw.choice([0, 100, 1_000, draw.randint(0, 4_000)])) for pair in chosen]
        if links and draw.random() < 0.2:
            # A margin below zero, which the LTA domain makes up for.
            branches.append((-draw.randint(1, 400), made_ptdfs(draw, count)))
        base = draw.randint(0, 9_000)
        orders = []
        for zone in zones:
            near = base + draw.choice([0, 0, draw.randint(-3_000, 3_000)])
            for _ in range(draw.randint(1, 6)):
                side = draw.choice([BUYS, SELLS])
                price = near + draw.randint(-40, 60) * 50 * (1 if side == BUYS else -1)
                quantity = draw.choice([100, 500, 1_000, draw.randint(1, 6_000)])
                orders.append((zone, side, quantity, max(-50_000, min(400_000, price))))
        return cls(count, branches, links, orders)

    @classmethod
    def read(cls, case: bytes) -> Market:
        """The market of a case that is readable."""
        zones, branches, links, _ = struct.unpack_from("<BBBH", case, 5)
        links_at = 14 + branches * 4 * (1 + zones)
        orders_at = links_at + 6 * links
        rows = struct.iter_unpack(f"<{1 + zones}i", case[14:links_at])
        return cls(
            zones,
            [(ram, ptdfs) for ram, *ptdfs in rows],
            list(struct.iter_unpack("<BBI", case[links_at:orders_at])),
            list(struct.iter_unpack("<BBIi", case[orders_at:])),
        )

    def case(self) -> bytes:
        counts = [self.zones, len(self.branches), len(self.links), len(self.orders)]
        parts = [b"LTC", struct.pack("<HBBBHI", 1, *counts, 10_000)]
        parts += [struct.pack(f"<i{self.zones}i", ram, *ptdfs) for ram, ptdfs in self.branches]
        parts += [struct.pack("<BBI", *link) for link in self.links]
        parts += [struct.pack("<BBIi", *order) for order in self.orders]
        return b"".join(parts)

    def cleared(self, spare: int = 0) -> Clearing | None:
        """The clearing of greatest welfare where each branch has so much less room, or None where there is none."""
        orders, links = len(self.orders), len(self.links)
        signs = [1 if side == BUYS else -1 for _, side, _, _ in self.orders]
        rows, limits = [], []
        for n, (_, _, capacity) in enumerate(self.links):
            rows.append([*([0] * orders), *(int(other == n) for other in range(links)), -capacity])
            limits.append(0)
        for ram, ptdfs in self.branches:
            loads = [sign * ptdfs[zone] / ONE for sign, (zone, _, _, _) in zip(signs, self.orders)]
            flows = [(ptdfs[start] - ptdfs[end]) / ONE for start, end, _ in self.links]
            rows.append([*loads, *flows, ram])
            limits.append(ram - spare)
        # HiGHS minimises.
        costs = [-sign * price for sign, (_, _, _, price) in zip(signs, self.orders)] + [0] * (links + 1)
        bounds = [(0, quantity) for _, _, quantity, _ in self.orders] + [(0, None)] * links + [(0, 1 if links else 0)]
        balance = [[*signs, *([0] * (links + 1))]]
        found = linprog(costs, rows or None, limits or None, balance, [0], bounds, method="highs")
        if found.status not in (0, 2):
            raise RuntimeError(f"HiGHS: {found.message}")
        return Clearing(found, orders, links) if found.status == 0 else None

    def worth(self, volumes: Iterable[Any]) -> Any:
        """Rule 7, in microcents."""
        return ONE * sum(
            (volume if side == BUYS else -volume) * price for volume, (_, side, _, price) in zip(volumes, self.orders)
        )

    def keeps_rows(self, volumes: Iterable[Any], flows: Iterable[Any], share: Any, within: float) -> bool:
        """Whether a clearing keeps rules 3 to 5 and the bounds of its numbers, each to within so much."""
        volumes, flows, share = [*map(Fraction, volumes)], [*map(Fraction, flows)], Fraction(share)
        net = [0] * self.zones
        for volume, (zone, side, _, _) in zip(volumes, self.orders):
            net[zone] += volume if side == BUYS else -volume
        based = list(net)
        for flow, (start, end, _) in zip(flows, self.links):
            based[start] += flow
            based[end] -= flow
        over = [-share, share - 1, abs(sum(net)), *(-number for number in volumes + flows)]
        over += [volume - order[2] for volume, order in zip(volumes, self.orders)]
        over += [flow - share * link[2] for flow, link in zip(flows, self.links)]
        for ram, ptdfs in self.branches:
            over.append(sum(ptdf * part for ptdf, part in zip(ptdfs, based)) / ONE - (1 - share) * ram)
        return bool(max(over) <= within)

    def zone_prices(self, system: Any, shadows: Sequence[Any]) -> list[Any]:
        """Rule 6, in grains."""
        prices = [ONE * system] * self.zones
        for shadow, (_, ptdfs) in zip(shadows, self.branches):
            prices = [price + ptdf * shadow for price, ptdf in zip(prices, ptdfs)]
        return prices

    def priced(self, system: Any, shadows: Sequence[Any]) -> tuple[list[Any], list[Any], Any, Any]:
        """At such prices: what each order gains by a tenth, the price difference of each link, branch total, owed."""
        prices = self.zone_prices(system, shadows)
        gains = [(ONE * price - prices[zone]) * (1 if side == BUYS else -1) for zone, side, _, price in self.orders]
        spreads = [prices[end] - prices[start] for start, end, _ in self.links]
        total = ONE * sum(ram * shadow for shadow, (ram, _) in zip(shadows, self.branches))
        owed = sum(max(0, spread) * link[2] for spread, link in zip(spreads, self.links))
        return gains, spreads, total, owed

    def bound(self, system: Any, shadows: Sequence[Any]) -> Any:
        """Rule 10, in microcents."""
        gains, _, total, owed = self.priced(system, shadows)
        return sum(max(0, gain) * order[2] for gain, order in zip(gains, self.orders)) + max(total, owed)

    def over(self, system: Any, shadows: Sequence[Any]) -> float:
        """By how many microcents HiGHS's optimum can exceed the bound at such prices: TOLERANCE times the price of
        each row and of each number's limits, since it keeps each of those to TOLERANCE.
        """
        gains, spreads, total, owed = self.priced(system, shadows)
        rows = ONE * (abs(system) + sum(shadows)) + sum(map(abs, spreads))
        return TOLERANCE * float(rows + sum(map(abs, gains)) + abs(owed - total))

    def short(self) -> float:
        """By how many microcents HiGHS's optimum can fall short: TOLERANCE cents for each tenth of an order."""
        return TOLERANCE * ONE * float(sum(quantity for _, _, quantity, _ in self.orders))


def made_ptdfs(draw: random.Random, zones: int) -> list[int]:
    """To five decimals, as published, or in tenths, with zones that do not bear on the branch."""
    step = draw.choice([1, 10_000])
    most = 60_000 // step
    return [draw.choice([0, 1, 1]) * step * draw.randint(-most, most) for _ in range(zones)]


class Clearing:
    """What HiGHS found: volumes, flows and share; system price and shadow prices, its duals."""

    def __init__(self, found: Any, orders: int, links: int) -> None:
        numbers = found.x.tolist()
        self.volumes, self.flows, self.share = numbers[:orders], numbers[orders:-1], numbers[-1]
        # The duals are of costs, and prices of gains.
        self.system = -found.eqlin.marginals.tolist()[0]
        self.shadows = [max(0.0, -dual) for dual in found.ineqlin.marginals.tolist()[links:]]
        self.found = found

    def degenerate(self, market: Market) -> bool:
        """Whether a basic number is at its bound: fewer numbers and slacks lie between their bounds than there are
        rows. Links without room are left out, since each would count.
        """
        uppers = [*(order[2] for order in market.orders), *([float("inf")] * len(self.flows)), 1]
        between = sum(TOLERANCE < number < upper - TOLERANCE for number, upper in zip(self.found.x, uppers))
        between += sum(self.found.slack > TOLERANCE)
        open_links = sum(self.share * link[2] > TOLERANCE for link in market.links)
        return bool(between < 1 + len(market.branches) + open_links)

    def tied(self) -> bool:
        """Whether other volumes may be worth as much: more numbers and slacks have price zero than there are rows."""
        numbers = (self.found.lower.marginals + self.found.upper.marginals).tolist()
        # Without links the share is no number of the program.
        prices = [*(numbers if self.flows else numbers[:-1]), *self.found.ineqlin.marginals]
        return bool(sum(abs(price) <= TOLERANCE for price in prices) > 1 + len(self.found.slack))


def rounded(market: Market, clearing: Clearing) -> tuple[list[int], list[int], int]:
    """Volumes and flows in tenths and the share in hundred-thousandths, balanced by single tenths."""
    share = max(0, min(ONE, round(clearing.share * ONE)))
    flows = [
        max(0, min(int(flow + TOLERANCE), share * link[2] // ONE)) for flow, link in zip(clearing.flows, market.links)
    ]
    volumes = [max(0, min(order[2], round(volume))) for volume, order in zip(clearing.volumes, market.orders)]
    over = sum(volume if order[1] == BUYS else -volume for volume, order in zip(volumes, market.orders))
    for n, (_, side, quantity, _) in enumerate(market.orders):
        while over and 0 < volumes[n] < quantity:
            step = (-1 if over > 0 else 1) * (1 if side == BUYS else -1)
            volumes[n] += step
            over += step if side == BUYS else -step
    return volumes, flows, share


def proposal(market: Market, prices: Clearing) -> bytes:
    """The proposal with the rounded prices of a clearing, and its rounded numbers or those of smaller margins."""
    volumes, flows, share = rounded(market, prices)
    if not market.keeps_rows(volumes, flows, Fraction(share, ONE), 0):
        volumes, flows, share = rounded(market, market.cleared(SPARE) or prices)
    shadows = [min(1_000_000, round(shadow)) for shadow in prices.shadows]
    numbers = [*volumes, *flows, *shadows]
    return b"LTP" + struct.pack(f"<HIi{len(numbers)}I", 1, share, round(prices.system), *numbers)


def optimum(market: Market, clearing: Clearing) -> int:
    """The welfare of HiGHS's clearing, checked in fractions: it keeps the rows, and no clearing is worth more."""
    if not market.keeps_rows(clearing.volumes, clearing.flows, clearing.share, TOLERANCE):
        raise RuntimeError(f"HiGHS misses a row by more than {TOLERANCE}")
    found = market.worth(map(Fraction, clearing.volumes))
    bound = market.bound(Fraction(clearing.system), list(map(Fraction, clearing.shadows)))
    if bound - found > market.short():
        raise RuntimeError(f"HiGHS misses the optimum by up to {float(bound - found)} microcents")
    return int(round(found))


def hours(count: int, seed: int) -> Iterator[tuple[Market, Clearing, str]]:
    """Market, clearing and line of each hour."""
    draw = random.Random(seed)
    while count > 0:
        market = Market.made(draw)
        prices = market.cleared()
        if prices is None:
            raise RuntimeError("HiGHS finds no clearing")
        if abs(prices.system) < 400_000:
            words = market.case().hex(), proposal(market, prices).hex(), str(optimum(market, prices))
            yield market, prices, " ".join(words) + "\n"
            count -= 1


def arguments() -> argparse.Namespace:
    parser = argparse.ArgumentParser(description=__doc__.split("\n")[0])
    parser.add_argument("--hours", type=int, default=3_000, metavar="N", help="how many hours (3000)")
    parser.add_argument("--seed", type=int, default=1, metavar="S", help="seed of the hours (1)")
    parser.add_argument("--force", action="store_true", help="overwrite FILE")
    parser.add_argument("file", metavar="FILE")
    return parser.parse_args()


def main() -> int:
    given = arguments()
    if linprog is None:
        print(MISSING, file=sys.stderr)
        return 2
    if os.path.lexists(given.file) and not given.force:
        print(f"{given.file}: already exists; use --force to overwrite", file=sys.stderr)
        return 2
    lines, degenerate, tied = [], 0, 0
    for market, clearing, line in hours(given.hours, given.seed):
        lines.append(line)
        degenerate, tied = degenerate + clearing.degenerate(market), tied + clearing.tied()
        if sys.stderr.isatty() and len(lines) % 10 == 0:
            print(f"\r{len(lines):,} of {given.hours:,} hours cleared", end="", file=sys.stderr, flush=True)
    if sys.stderr.isatty():
        print("\r\x1b[K", end="", file=sys.stderr)
    packed = lzma.compress("".join(lines).encode(), preset=9)
    with open(given.file, "wb" if given.force else "xb") as file:
        file.write(packed)
    print(f"{len(lines)} hours in {len(packed)} bytes; {degenerate} are degenerate, {tied} have ties")
    return 0


if __name__ == "__main__":
    sys.exit(main())
