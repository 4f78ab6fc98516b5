#!/usr/bin/env python3
"""Measures what columns save in the archive: compresses a day's hours with xz and zstd, in rows and in columns.

  archive_ratio.py [SEED]

The hours are generated, since no real day is available: 25 hours with 16 zones, 64 branches, 64 links and 512 orders.
Half of the orders of each zone are buys. A zone's orders stand together as in an exchange's curve, the buys from the
dearest on and the sells from the cheapest on, with quantities of some MW. A second day has the same orders in any
order, a third the same hours with 40 orders.

It prints the compressed bytes of the cases in rows, in columns, and the second divided by the first: for each hour
compressed alone and for the day as one file. The library makes the columns. zstd is left out if it is not installed.
"""

from __future__ import annotations

import lzma
import random
import shutil
import subprocess
import sys

from lta import hour, library

HOURS, ZONES, BRANCHES, LINKS = 25, 16, 64, 64
DAYS = (
    ("512 orders, as curves", 512, True),
    ("512 orders, in any order", 512, False),
    ("40 orders, as curves", 40, True),
)


def order_lines(numbers: random.Random, count: int, sorted_by_price: bool) -> list[str]:
    """The orders of an hour, zone by zone as curves, or in any order."""
    orders = []
    for zone in range(ZONES):
        middle = numbers.randint(2_000, 9_000)
        own = count // ZONES + (zone < count % ZONES)
        for side, sign in (("buy", -1), ("sell", 1)):
            half = (own + (side == "buy")) // 2
            prices = [middle + sign * abs(int(numbers.gauss(0, 2_500))) for _ in range(half)]
            for price in sorted(prices, reverse=side == "buy"):
                quantity = numbers.choice((numbers.randint(1, 400) * 5, numbers.randint(1, 2_000)))
                orders.append(f"order {zone} {side} {quantity} {price}")
    if not sorted_by_price:
        numbers.shuffle(orders)
    return orders


def day(seed: int, count: int, sorted_by_price: bool) -> list[bytes]:
    """The cases of a day. Its branches and links change little from hour to hour."""
    numbers = random.Random(seed)
    pairs = [(a, b) for a in range(ZONES) for b in range(ZONES) if a != b]
    links = [(*pair, numbers.randint(10, 900) * 10) for pair in numbers.sample(pairs, LINKS)]
    ptdfs = [[numbers.randint(-40_000, 40_000) for _ in range(ZONES)] for _ in range(BRANCHES)]
    cases = []
    for _ in range(HOURS):
        lines = [f"case version 2 zones {ZONES} tolerance 1000"]
        for row in ptdfs:
            lines.append(f"branch {numbers.randint(500, 20_000)} " + " ".join(map(str, row)))
        for source, sink, capacity in links:
            lines.append(f"link {source} {sink} {capacity} {capacity // 2}")
        lines += order_lines(numbers, count, sorted_by_price)
        cases.append(bytes(hour.build("\n".join(lines) + "\n")[0]))
    return cases


def xz(data: bytes) -> int:
    return len(lzma.compress(data, preset=9 | lzma.PRESET_EXTREME))


def zstd(data: bytes) -> int:
    return len(subprocess.run(["zstd", "-19", "-c", "-q"], input=data, stdout=subprocess.PIPE, check=True).stdout)


def day_files(cases: list[bytes], made: list[bytes]) -> tuple[list[bytes], list[bytes]]:
    return [b"".join(cases)], [b"".join(made)]


def main(arguments: list[str]) -> int:
    seed = int(arguments[0]) if arguments else 1
    packers = {"xz": xz, **({"zstd": zstd} if shutil.which("zstd") else {})}
    print(f"seed {seed}, {HOURS} hours a day" + ("" if "zstd" in packers else "; there is no zstd"))
    print(f"{'':52}{'bytes':>9}{'rows':>9}{'columns':>9}{'ratio':>7}")
    for name, count, ordered in DAYS:
        cases = day(seed, count, ordered)
        made = [library.case_columned(case).file or b"" for case in cases]
        for packer, packed in packers.items():
            for what, parts in (("each hour alone", (cases, made)), ("the day as one file", day_files(cases, made))):
                one, other = (sum(map(packed, files)) for files in parts)
                size = sum(map(len, cases))
                print(f"{f'{name}, {packer}, {what}':52}{size:>9,}{one:>9,}{other:>9,}{other / one:>7.2f}")
    return 0


if __name__ == "__main__":
    sys.exit(main(sys.argv[1:]))
