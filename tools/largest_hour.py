#!/usr/bin/env python3
"""Makes and prints a stored hour of full size, with 16 zones, 64 branches, 64 links and 512 orders; a stored dump of
such an hour; or a stored hour with 512 orders in one family.

  largest_hour.py NAME        hours: largest-varied, largest-contracted, largest-welfare, largest-welfare-contracted,
                              largest-loss, largest-loss-no-link or largest-bound; dumps: refused-60-largest or
                              largest-less-an-order; with families: largest-chain, largest-circle or largest-tail

The two contracted hours are of case version 2 and are the longest of all. largest-loss-no-link has no link.
"""

from __future__ import annotations

import math
import sys
from collections.abc import Callable, Iterable, Sequence

ZONES, BRANCHES, LINKS, ORDERS = 16, 64, 64, 512
ORDERS_PER_ZONE = ORDERS // ZONES
# RAM, PTDFs and shadow price; and from, to, capacity and flow.
Branch = tuple[int, list[int], int]
Link = tuple[int, int, int, int]
LOW_ZONES, HIGH_ZONES = range(0, 8), range(8, 16)


def hour_text(comment: Iterable[str], tolerance: int, share: int, system: int, branches: Sequence[Branch], links: Sequence[Link], orders: Sequence[tuple[str, int]], contracted: Sequence[int] | None = None) -> str:
    """The text: a branch is (RAM, PTDFs, shadow), a link (from, to, capacity, flow), an order (line, volume). What is
    contracted, a volume for each link, is there in a case of version 2.
    """
    version, behind = (1, [""] * len(links)) if contracted is None else (2, [f" {volume}" for volume in contracted])
    lines = [f"# {line}" for line in comment]
    lines.append("# Printed by tools/largest_hour.py, which says how it is made.")
    lines.append(f"case version {version} zones {ZONES} tolerance {tolerance}")
    lines += [f"branch {ram} {' '.join(map(str, ptdfs))}" for ram, ptdfs, _ in branches]
    lines += [f"link {source} {sink} {capacity}{last}" for (source, sink, capacity, _), last in zip(links, behind)]
    lines += [f"order {line}" for line, _ in orders]
    lines.append(f"proposal version 1 share {share} system {system}")
    lines += [f"volume {volume}" for _, volume in orders]
    lines += [f"flow {flow}" for *_, flow in links]
    lines += [f"shadow {shadow}" for *_, shadow in branches]
    return "\n".join(lines) + "\n"


def two_price_hour(comment: Iterable[str], ram: int, low_side: str, high_side: str, contracted: Sequence[int] | None = None, linked: bool = True) -> str:
    """Zones 0 to 7 at -50,000 cents and 8 to 15 at 400,000, every order accepted whole at its zone's price.

    64 branches with PTDF 1,000 in the high zones and shadow price 703,125 make the spread of 450,000 cents.
    256 orders of 100,000 load each branch by 256,000 tenths, or relieve it by as much.
    """
    ptdfs = [0] * len(LOW_ZONES) + [1000] * len(HIGH_ZONES)
    branches = [(ram, ptdfs, 703125)] * BRANCHES
    links = [(low, high, 100000, 0) for low in LOW_ZONES for high in HIGH_ZONES if linked]
    orders = [(f"{zone} {low_side} 100000 -50000", 100000) for zone in LOW_ZONES for _ in range(ORDERS_PER_ZONE)]
    orders += [(f"{zone} {high_side} 100000 400000", 100000) for zone in HIGH_ZONES for _ in range(ORDERS_PER_ZONE)]
    return hour_text(comment, 0, 0, -50000, branches, links, orders, contracted)


def largest_welfare() -> str:
    comment = (
        "The largest welfare, rent and owed: every buy at 400,000 and every sell at -50,000 cents is accepted.",
        "expect 0 0",
        "totals welfare 11520000000 bound 11520000000 gap 0 rent 11520000000 owed 2880000000",
    )
    return two_price_hour(comment, 256000, "sell", "buy")


def largest_welfare_contracted() -> str:
    comment = (
        "largest-welfare of version 2 with all of each capacity contracted: the same totals.",
        "expect 0 0",
        "totals welfare 11520000000 bound 11520000000 gap 0 rent 11520000000 owed 2880000000",
    )
    return two_price_hour(comment, 256000, "sell", "buy", [100000] * LINKS)


def largest_loss() -> str:
    comment = (
        "The most negative welfare and rent, with negative margins: largest-welfare with buys and sells exchanged.",
        "expect 26 0",
        "totals welfare -11520000000 bound 2880000000 gap 14400000000 rent -11520000000 owed 2880000000",
    )
    return two_price_hour(comment, -256000, "buy", "sell")


def largest_loss_no_link() -> str:
    comment = (
        "largest-loss without its links: the least bound of all, which the branches alone make (S-6), and no gap.",
        "expect 0 0",
        "totals welfare -11520000000 bound -11520000000 gap 0 rent -11520000000 owed 0",
    )
    return two_price_hour(comment, -256000, "buy", "sell", linked=False)


def largest_bound() -> str:
    """512 unserved buys at 400,000 in zones at -50,000 cents, and the largest branch total.

    PTDFs of 200,000 in all zones and -200,000 in all zones cancel in the prices and load no branch.
    """
    comment = (
        "The largest bound and gap: no order served at the greatest spread, margins and shadow prices at their limits.",
        "expect 26 0",
        "totals welfare 0 bound 55040000000 gap 55040000000 rent 0 owed 0",
    )
    branches = [(500000, [200000 - 400000 * (branch % 2)] * ZONES, 1000000) for branch in range(BRANCHES)]
    links = [(low, high, 100000, 100000) for low in LOW_ZONES for high in HIGH_ZONES]
    orders = [(f"{order % ZONES} buy 100000 400000", 0) for order in range(ORDERS)]
    return hour_text(comment, 0, 100000, -50000, branches, links, orders)


def sequence(state: int = 1) -> Callable[[int], int]:
    """Numbers with no pattern, the same at every run: numbers(n) gives the next one below n."""

    def numbers(count: int) -> int:
        nonlocal state
        state = (state * 6364136223846793005 + 1442695040888963407) % 2**64
        return (state >> 33) % count

    return numbers


def varied_orders(numbers: Callable[[int], int], price: int, target: int) -> list[tuple[int, int, int, int]]:
    """One zone's orders as (sign, quantity, price, volume): in the money whole, out of the money not at all,
    the last at the zone price for what the target net position still lacks. Buys have sign 1, sells -1."""
    orders, rest = [], target
    for order in range(ORDERS_PER_ZONE - 1):
        quantity, distance = 1 + numbers(20000), 1 + numbers(20000)
        if order % 2 == 0:
            sign = 1 if rest > 0 else -1
            rest -= sign * quantity
            orders.append((sign, quantity, price + sign * distance, quantity))
        else:
            sign = 1 - 2 * numbers(2)
            orders.append((sign, quantity, price - sign * distance, 0))
    return orders + [(1 if rest > 0 else -1, 100000, price, abs(rest))]


def euros(amount: int) -> str:
    """A whole amount in tenths of a cent, the product of tenths and cents, as euros."""
    return f"{amount // 1000}.{amount % 1000:03}"


def met_total(links: Sequence[tuple[int, int, int]], price: Sequence[int], total: int) -> list[tuple[int, int, int]]:
    """The links with capacities, even ones, by which their total is just below another."""
    spreads = [max(0, price[sink] - price[source]) for source, sink, _ in links]
    whole = sum(capacity * spread for (_, _, capacity), spread in zip(links, spreads))
    capacities = [capacity * total // whole // 2 * 2 if spread else capacity for (*_, capacity), spread in zip(links, spreads)]
    rest = total - sum(capacity * spread for capacity, spread in zip(capacities, spreads))
    for _, link in sorted(((spread, link) for link, spread in enumerate(spreads) if spread), reverse=True):
        more = rest // (2 * spreads[link]) * 2
        capacities[link] += more
        rest -= more * spreads[link]
    return [(source, sink, capacity) for (source, sink, _), capacity in zip(links, capacities)]


def largest_varied(contracting: bool = False) -> str:
    """LTA share one half. The flow-based part is chosen first and each RAM is twice the load it makes, so that
    every branch is full; each link is full where its spread is positive and empty elsewhere. With all orders right
    at the zone prices, rent is half of branch total plus half of owed, and the gap half of what lies between them. The
    capacities are drawn, and then cut and topped up so that this is little (S-12): less than what two tenths of the
    link with the least positive spread come to.

    PTDFs are multiples of 500, shadow prices of 200, flow-based parts of 100 and capacities of 2: all halves are whole.

    With contracted volumes it is the same hour, of version 2; what is owed then follows from them, and no more.
    """
    numbers, system = sequence(), 100000
    part = [100 * (numbers(41) - 20) for _ in range(ZONES)]
    part[0] -= sum(part)
    branches = []
    for _ in range(BRANCHES):
        ptdfs = [500 * (numbers(401) - 200) for _ in range(ZONES)]
        ram = sum(ptdf * share for ptdf, share in zip(ptdfs, part)) // 50000
        branches.append((ram, ptdfs, 200 * numbers(51)))
    price = [system + sum(ptdfs[zone] * shadow for _, ptdfs, shadow in branches) // 100000 for zone in range(ZONES)]
    pairs = [(source, sink) for source in range(ZONES) for sink in range(ZONES) if source != sink]
    branch_total = sum(ram * shadow for ram, _, shadow in branches)
    drawn = [(*pairs.pop(numbers(len(pairs))), 2 * numbers(2501)) for _ in range(LINKS)]
    links, position = [], list(part)
    for source, sink, capacity in met_total(drawn, price, branch_total):
        flow = capacity // 2 if price[sink] > price[source] else 0
        position[sink] += flow
        position[source] -= flow
        links.append((source, sink, capacity, flow))
    by_zone = [varied_orders(numbers, price[zone], position[zone]) for zone in range(ZONES)]
    rows = [(zone, *row) for rank in zip(*by_zone) for zone, row in enumerate(rank)]
    sides = {1: "buy", -1: "sell"}
    orders = [(f"{zone} {sides[sign]} {quantity} {limit}", volume) for zone, sign, quantity, limit, volume in rows]
    welfare = sum(sign * volume * limit for _, sign, _, limit, volume in rows)
    spreads = [max(0, price[sink] - price[source]) for source, sink, *_ in links]
    capacities = [capacity for _, _, capacity, _ in links]
    link_total = owed = sum(capacity * spread for capacity, spread in zip(capacities, spreads))
    contracted = None
    what = "An hour of full size with varied fields, every branch and link full, accepted at its tolerance."
    if contracting:
        what = "largest-varied of version 2, a part of each capacity contracted: owed alone is another."
        contracted = [numbers(capacity + 1) for capacity in capacities]
        owed = sum(volume * spread for volume, spread in zip(contracted, spreads))
    gap, rent = abs(branch_total - link_total) // 2, (branch_total + link_total) // 2
    totals = {"welfare": welfare, "bound": welfare + gap, "gap": gap, "rent": rent, "owed": owed}
    comment = (
        what,
        "expect 0 0",
        "totals " + " ".join(f"{name} {euros(amount)}" for name, amount in totals.items()),
    )
    return hour_text(comment, -(-gap // 10), 50000, system, branches, links, orders, contracted)


def largest_contracted() -> str:
    return largest_varied(contracting=True)


def accepted_share(volume: int, quantity: int) -> float:
    """A share whose product with the quantity, rounded once and cut, is the volume: the nearest or the next."""
    share = volume / quantity
    return share if int(share * quantity) == volume else math.nextafter(share, 2)


def dump_text(comment: Iterable[str], text: str) -> str:
    """The text of a dump that gives the proposal of an hour's text, for its case."""
    rows = [line.split() for line in text.split("\n") if line and not line.startswith("#")]
    quantities = iter(int(words[3]) for words in rows if words[0] == "order")
    lines = [f"# {line}" for line in comment]
    lines.append("# Printed by tools/largest_hour.py, which says how it is made.")
    for kind, *words in rows:
        if kind == "proposal":
            lines.append(f"dump share {int(words[3]) / 100000} system {int(words[5]) / 100}")
        elif kind == "volume":
            lines.append(f"accepted {accepted_share(int(words[0]), next(quantities))}")
        elif kind in ("flow", "shadow"):
            lines.append(f"{kind} {int(words[0]) / {'flow': 10, 'shadow': 100}[kind]}")
        else:
            lines.append(" ".join([kind, *words]))
    return "\n".join(lines) + "\n"


def refused_60_largest() -> str:
    comment = (
        "The dump of largest-varied: its proposal has 2,573 bytes, and the output that it is run with one less.",
        "expect 60 0 0",
    )
    return dump_text(comment, largest_varied())


def largest_less_an_order() -> str:
    """The last order that is not accepted is left out: it is out of the money, and nothing is changed by that."""
    comment = (
        "The dump of largest-varied without one order, so that there is room for its proposal.",
        "expect 0 0 2569 judged 0",
    )
    lines = largest_varied().split("\n")
    orders = [at for at, line in enumerate(lines) if line.startswith("order ")]
    volumes = [at for at, line in enumerate(lines) if line.startswith("volume ")]
    last = max(n for n, at in enumerate(volumes) if lines[at] == "volume 0")
    left_out = (orders[last], volumes[last])
    return dump_text(comment, "\n".join(line for at, line in enumerate(lines) if at not in left_out))


DUMPS = {
    "refused-60-largest": refused_60_largest,
    "largest-less-an-order": largest_less_an_order,
}

def family_hour(comment: Iterable[str], parents: Iterable[int | str]) -> str:
    """512 orders of one zone at its price, a buy and a sell by turns. Each pair is accepted in a tenth less than the
    one before.
    """
    lines = [f"# {line}" for line in comment]
    lines += ["# Printed by tools/largest_hour.py, which says how it is made.", "case version 1 zones 1 tolerance 0"]
    lines += [f"order 0 {('buy', 'sell')[order % 2]} 1000 0" for order in range(ORDERS)]
    lines += ["proposal version 1 share 0 system 0"] + [f"volume {1000 - order // 2}" for order in range(ORDERS)]
    lines += ["families version 1"] + [f"parent {parent}" for parent in parents]
    return "\n".join(lines) + "\n"


NO_TOTALS = "totals welfare 0 bound 0 gap 0 rent 0 owed 0"


def largest_chain() -> str:
    comment = ("512 orders in one chain, each leaning on the one before it.", "expect 0 0", NO_TOTALS)
    return family_hour(comment, ["none", *range(ORDERS - 1)])


def largest_circle() -> str:
    comment = (
        "512 orders in one circle: the chain, with the first leaning on the last. 512 steps lead back to where they began.",
        "expect 18 0",
        "expect-without 0 0",
        NO_TOTALS,
    )
    return family_hour(comment, [ORDERS - 1, *range(ORDERS - 1)])


def largest_tail() -> str:
    comment = (
        "Each order leans on the one behind it and the last but one on the last, which is its own parent: 511 orders lead",
        "into a circle, and the last alone is on it.",
        "expect 18 511",
        "expect-without 0 0",
        NO_TOTALS,
    )
    return family_hour(comment, [*range(1, ORDERS), ORDERS - 1])


FAMILIES = {"largest-chain": largest_chain, "largest-circle": largest_circle, "largest-tail": largest_tail}

HOURS: dict[str, Callable[[], str]] = {
    "largest-varied": largest_varied,
    "largest-contracted": largest_contracted,
    "largest-welfare": largest_welfare,
    "largest-welfare-contracted": largest_welfare_contracted,
    "largest-loss": largest_loss,
    "largest-loss-no-link": largest_loss_no_link,
    "largest-bound": largest_bound,
}


def main(arguments: list[str]) -> int:
    makers: dict[str, Callable[[], str]] = {**HOURS, **DUMPS, **FAMILIES}
    if len(arguments) != 1 or arguments[0] not in makers:
        sys.stderr.write(__doc__)
        return 2
    sys.stdout.write(makers[arguments[0]]())
    return 0


if __name__ == "__main__":
    sys.exit(main(sys.argv[1:]))
