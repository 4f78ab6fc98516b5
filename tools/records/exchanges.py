"""Net positions, zone prices and pairs, letter i. After its name a record has: how many numbers of scratch the wide
entry gets, and how many the small one; net positions in tenths, export positive, and prices in grains, 64 bits each,
the highest bit being the sign; and the pairs. The inputs are 001's two price sets, hours whose answer is known, and one
for each cause, each with what is due. The line has, first for the wide scratch and then for the small one: number,
index, 1 for a yes or 0, the total in tenths, and how many numbers at the start of the scratch are zero. All are 7
before.
"""

from __future__ import annotations

import struct
from collections.abc import Iterator, Sequence
from dataclasses import dataclass

from . import Record, text

SCRATCH, SMALL_SCRATCH = 324, 96  # numbers that the entries ask for
MORE = 6  # numbers of scratch past the last


@dataclass(frozen=True)
class Exchange:
    """An input and what is due for it: a refusal's number and index, or 0, 0, 1 for a yes or 0, and the total."""

    name: str
    net: tuple[int, ...]
    prices: tuple[int, ...]
    pairs: tuple[tuple[int, ...], ...]
    due: tuple[int, ...]
    more: int = MORE


def both_ways(*pairs: tuple[int, int]) -> tuple[tuple[int, int], ...]:
    return tuple(way for first, second in pairs for way in ((first, second), (second, first)))


# 001, annex 5.1: five zones, with pairs AB, AC, BE, CD and DE both ways.
NET_001 = (1000, 13000, -7000, -3000, -4000)
FIRST_001 = (100000000, 200000000, 400000000, 500000000, 300000000)
SECOND_001 = (200000000, 100000000, 400000000, 500000000, 300000000)
PAIRS_001 = both_ways((0, 1), (0, 2), (1, 4), (2, 3), (3, 4))

EQUAL, FALLING = (5000000,) * 3, (7000000, 6000000, 5000000)
CIRCLE, AROUND = ((0, 1), (1, 2), (2, 0)), (100, 0, -100)

# Sixteen zones; pairs to the next zone, to the one after it, and so on to the fourth.
LARGE_NET = (*range(1000, 9000, 1000), *(-4500,) * 8)
LARGE_RISING = tuple(range(10000000, 170000000, 10000000))
LARGE_PAIRS = tuple((zone, (zone + step) % 16) for step in range(1, 5) for zone in range(16))

# The parts of a refused input that are not at fault.
NET, PRICES, PAIRS = (10, 0, -10), (3, 4, 5), ((0, 1), (1, 2))

EXCHANGES = (
    Exchange("001, first price set", NET_001, FIRST_001, PAIRS_001, (0, 0, 0, 8000)),
    Exchange("001, second price set", NET_001, SECOND_001, PAIRS_001, (0, 0, 1, 14000)),
    Exchange("001, no pairs", NET_001, SECOND_001, (), (0, 0, 0, 0)),
    Exchange("one zone", (0,), (5000000,), (), (0, 0, 1, 0)),
    Exchange("one zone at the lowest price", (0,), (-5000000000,), (), (0, 0, 1, 0)),
    Exchange("one zone at the highest price", (0,), (40000000000,), (), (0, 0, 1, 0)),
    Exchange("a circle with nothing to carry", (0, 0, 0), EQUAL, CIRCLE, (0, 0, 1, 0)),
    Exchange("around a circle", AROUND, EQUAL, CIRCLE, (0, 0, 1, 100)),
    Exchange("around a circle of falling prices", AROUND, FALLING, CIRCLE, (0, 0, 0, 0)),
    Exchange("back along a used pair", (10, 10, -10, -10), (1,) * 4, ((0, 2), (0, 3), (1, 2)), (0, 0, 1, 20)),
    Exchange("the largest positions", (51200000, -51200000), (0, 0), ((0, 1),), (0, 0, 1, 51200000)),
    Exchange("sixteen zones and 64 pairs, prices rising", LARGE_NET, LARGE_RISING, LARGE_PAIRS, (0, 0, 1, 36000)),
    Exchange("sixteen zones and 64 pairs, prices equal", LARGE_NET, (0,) * 16, LARGE_PAIRS, (0, 0, 1, 36000)),
    Exchange("84, a 65th pair", LARGE_NET, (0,) * 16, (*LARGE_PAIRS, (0, 15)), (84, 64)),
    Exchange("81, no zone", (), (), (), (81, 0)),
    Exchange("81, seventeen zones", (0,) * 17, (0,) * 17, (), (81, 0)),
    Exchange("81, lists of two lengths", NET, (3, 4), PAIRS, (81, 0)),
    Exchange("82, a position above", (-51200000, 51200001, 0), PRICES, PAIRS, (82, 1)),
    Exchange("82, a position below", (0, 51200000, -51200001), PRICES, PAIRS, (82, 2)),
    Exchange("82, a sum that is not zero", (10, 1, -10), PRICES, PAIRS, (82, 0)),
    Exchange("83, a price above", NET, (3, 40000000001, -5000000001), PAIRS, (83, 1)),
    Exchange("83, a price below", NET, (3, 4, -5000000001), PAIRS, (83, 2)),
    Exchange("84, an unknown zone", NET, PRICES, ((0, 1), (1, 3)), (84, 1)),
    Exchange("84, equal zones", NET, PRICES, ((0, 1), (2, 2)), (84, 1)),
    Exchange("84, an earlier pair", NET, PRICES, ((0, 1), (1, 0), (0, 1)), (84, 2)),
    Exchange("84, a last byte alone", NET, PRICES, ((0, 1), (1,)), (84, 1)),
    Exchange("85, a scratch of 323 and of 95", NET, PRICES, PAIRS, (85, 0), more=-1),
    Exchange("84 before 85", NET, PRICES, ((0, 0),), (84, 0), more=-1),
)


def numbers(values: Sequence[int]) -> bytes:
    """The numbers' bytes, by their size and sign."""
    return struct.pack(f"<{len(values)}Q", *(abs(value) | (value < 0) << 63 for value in values))


def record(exchange: Exchange) -> Record:
    pairs = bytes(zone for pair in exchange.pairs for zone in pair)
    parts = (numbers(exchange.net), numbers(exchange.prices), pairs)
    return Record(b"i", parts, SCRATCH + exchange.more, SMALL_SCRATCH + exchange.more)


def line(exchange: Exchange) -> str:
    """What is printed. Both entries answer alike; after an answer the scratch is zeros, after a refusal as it was."""
    number, index, yes, total = (*exchange.due, 0, 0)[:4]
    wide, small = (0, 0) if number else (SCRATCH, SMALL_SCRATCH)
    answer_words = f"{number} {index} {yes} {total}"
    return f"{exchange.name}: {answer_words} {wide}; {answer_words} {small}"


def runs() -> Iterator[tuple[tuple[Record, ...], list[str]]]:
    for exchange in EXCHANGES:
        yield (text(f"{exchange.name}: "), record(exchange)), [line(exchange)]
