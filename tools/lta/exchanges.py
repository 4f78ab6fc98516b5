"""lta intuitive: whether an accepted hour's exchanges can all go from a lower or equal price to a higher one. Yes or no
and the total are the library's. Which zones are cut off is found next to it and held to its answer: no counted pair
leaves them, and what they export above what they import is just what cannot be carried.
"""

from __future__ import annotations

from collections import deque
from collections.abc import Iterable, Iterator, Mapping, Sequence
from dataclasses import dataclass, replace

from . import amounts, explain_text, hour, library, numbers, rules, schema
from .causes import Disagreement, explain
from .inputs import Hashed, HourFiles, InputError, printable, why_not

RECORD_TYPE = schema.INTUITIVE
NOT_PROVED = "Yes or no and the total are the library's. All else is computed next to it and is not proved."
LINKS = "the case's links"


# Pairs.


@dataclass(frozen=True)
class Pairs:
    """The pairs of zones that are asked about: where they come from, and of a text the line of each."""

    name: str
    zones: tuple[tuple[int, int], ...]
    lines: tuple[int, ...] = ()

    def place(self, index: int) -> str:
        return f"pair {index}" + (f", line {self.lines[index]} of {printable(self.name)}" if self.lines else "")


def links(case: bytes) -> Pairs:
    return Pairs(LINKS, tuple(hour.link_pairs(case)))


def read_pairs(name: str, data: bytes) -> Pairs:
    """The pairs of a text: two zones to a line, with # before a comment. Which zones there are, the library asks."""
    zones, lines = [], []
    try:
        for line, content in enumerate(hour.decoded(data).split("\n"), 1):
            words = content.split("#", 1)[0].split()
            if not words:
                continue
            try:
                if len(words) != 2:
                    raise ValueError(f"a pair takes two zones, not {len(words)}")
                first, second = (hour.number(word, "zone", "B") for word in words)
            except ValueError as fault:
                raise hour.TextError(line, str(fault)) from None
            zones.append((first, second))
            lines.append(line)
    except ValueError as fault:
        raise InputError(name, why_not(fault)) from None
    return Pairs(name, tuple(zones), tuple(lines))


def pair_fault(pairs: Sequence[tuple[int, int]], index: int, zones: int) -> str | None:
    """What is wrong with a pair, or None: 84's causes."""
    first, second = pairs[index]
    unknown = [zone for zone in (first, second) if zone >= zones]
    if unknown:
        known = "zone 0 alone" if zones == 1 else f"{zones} zones, 0 to {zones - 1}"
        return f"zone {unknown[0]} is unknown: the case has {known}"
    if first == second:
        return f"it leads from zone {first} to itself"
    if (first, second) in pairs[:index]:
        return f"{first} to {second} repeats pair {pairs.index((first, second))}"
    if index >= rules.INTUITIVE_PAIRS:
        return f"it is past the {rules.INTUITIVE_PAIRS}th"
    return None


# What is cut off.


class Graph:
    """Annex 5.1's graph: what each zone exports, in tenths, and the pairs that count at the zone prices."""

    def __init__(self, exports: Iterable[int], prices: Sequence[int], pairs: Iterable[tuple[int, int]]) -> None:
        self.exports, self.prices = list(exports), prices
        self.counted = [(first, second) for first, second in pairs if prices[first] <= prices[second]]

    @property
    def to_carry(self) -> int:
        return sum(export for export in self.exports if export > 0)

    def sent(self, zones: Iterable[int]) -> tuple[int, int]:
        """What these zones export, and what they import."""
        exports = [self.exports[zone] for zone in zones]
        return sum(export for export in exports if export > 0), -sum(export for export in exports if export < 0)

    def cut_off(self) -> list[int]:
        """The zones that are reached from exports that are left when as much is carried as can be; in order."""
        left = [max(export, 0) for export in self.exports]
        room = [max(-export, 0) for export in self.exports]
        flow = dict.fromkeys(self.counted, 0)
        while True:
            came = self.reached(left, flow)
            ends = [zone for zone in came if room[zone]]
            if not ends:
                return sorted(came)
            steps, zone = [], ends[0]
            before = came[zone]
            while before is not None:
                steps.append((before, zone))
                zone, before = before, came[before]
            # A step along a counted pair has no limit; one back takes at most what goes there.
            limits = [flow[(second, first)] for first, second in steps if (first, second) not in flow]
            amount = min(left[zone], room[ends[0]], *limits)
            left[zone] -= amount
            room[ends[0]] -= amount
            for first, second in steps:
                if (first, second) in flow:
                    flow[(first, second)] += amount
                else:
                    flow[(second, first)] -= amount

    def reached(self, left: Sequence[int], flow: Mapping[tuple[int, int], int]) -> dict[int, int | None]:
        """The zones reached from those that have exports left, each with the zone before it."""
        came: dict[int, int | None] = {zone: None for zone, export in enumerate(left) if export}
        waiting = deque(came)
        while waiting:
            zone = waiting.popleft()
            further = [second for first, second in self.counted if first == zone]
            further += [first for (first, second), amount in flow.items() if second == zone and amount]
            for other in further:
                if other not in came:
                    came[other] = zone
                    waiting.append(other)
        return came


def yes_or_no(intuitive: bool | None, total: int | None) -> str:
    return f"{'yes' if intuitive else 'no'} and {amounts.mw(total or 0)}"


def cross_checked(graph: Graph, answer: library.Carried) -> list[int]:
    """The zones that are cut off, once they bear out the library's answer; for a yes there are none."""
    zones = graph.cut_off()
    exports, imports = graph.sent(zones)
    if any(first in zones and second not in zones for first, second in graph.counted):
        raise Disagreement(yes_or_no(answer.intuitive, answer.total), "zones that a counted pair leaves")
    found = (not zones, graph.to_carry - (exports - imports))
    if (answer.intuitive, answer.total) != found:
        raise Disagreement(yes_or_no(answer.intuitive, answer.total), yes_or_no(*found))
    return zones


# Told.


@dataclass(frozen=True)
class IntuitiveResult:
    """The library's answer on an hour, and what is found next to it; or why there is no answer."""

    name: str
    pairs: Pairs | None = None
    answer: library.Carried | None = None
    # In words, of a refusal.
    cause: str = ""
    graph: Graph | None = None
    cut_off: tuple[int, ...] = ()
    inputs: tuple[Hashed, ...] = ()
    families: str = ""
    error: str = ""

    @property
    def intuitive(self) -> bool:
        return self.answer is not None and bool(self.answer.intuitive)

    @property
    def answered(self) -> tuple[Graph, int]:
        """The graph and the total of an hour that is answered."""
        if self.graph is None or self.answer is None or self.answer.total is None:
            raise ValueError(f"{self.name} is not answered")
        return self.graph, self.answer.total


def ask(name: str, read: HourFiles, pairs: Pairs, pairs_read: Sequence[Hashed] = ()) -> IntuitiveResult:
    """Has the library answer on an hour as it was read, and finds the rest. An hour that is refused with its family
    list is not accepted, and not answered.
    """
    case, proposal, families = read.case, read.proposal, read.families
    answer = library.intuitive(case, proposal, pairs.zones)
    if families is not None:
        judgement = library.judge(case, proposal, families)
        if not judgement.accepted:
            answer = library.Carried(*judgement.verdict)
    made = IntuitiveResult(name, pairs, answer, inputs=(*read.inputs, *pairs_read), families=read.list_use)
    if answer.number in numbers.VERDICTS and not answer.answered:
        return replace(made, cause=refused_hour(read, answer))
    sums = rules.Sums(case, proposal)
    if not answer.answered:
        return replace(made, cause=refused_pair(pairs, answer, sums.zones))
    graph = Graph([-net for net in sums.net], sums.prices, pairs.zones)
    return replace(made, graph=graph, cut_off=tuple(cross_checked(graph, answer)))


def refused_hour(read: HourFiles, answer: library.Carried) -> str:
    """Why the hour is not accepted: the judgement's words, of the same number and index."""
    found = explain(read.case, read.proposal, families=read.families)
    if (found.number, found.index) != (answer.number, answer.index):
        raise Disagreement(f"{answer.number} {answer.index}", f"{found.number} {found.index}")
    return found.words


def refused_pair(pairs: Pairs, answer: library.Carried, zones: int) -> str:
    if answer.number != 84:
        return f"{answer.number}: {answer.text}"
    faults = ((index, pair_fault(pairs.zones, index, zones)) for index in range(len(pairs.zones)))
    for first, fault in faults:
        if fault and first != answer.index:
            raise Disagreement(f"84 {answer.index}", f"84 {first}")
        if fault:
            return f"84, {pairs.place(first)}: {fault}"
    raise Disagreement(f"84 {answer.index}", "no pair at fault")


def zones_words(zones: Sequence[int]) -> str:
    return f"zone {zones[0]}" if len(zones) == 1 else f"zones {', '.join(map(str, zones[:-1]))} and {zones[-1]}"


def answer_lines(result: IntuitiveResult) -> Iterator[str]:
    """Yes or no, the total, and for a no what is cut off."""
    way = "from a lower or equal price to a higher one"
    graph, total = result.answered
    to_carry = graph.to_carry
    if result.intuitive:
        yield f"yes: all {amounts.mw(total)} of exports can go {way}"
        return
    yield f"no: {amounts.mw(total)} of {amounts.mw(to_carry)} of exports can go {way}"
    exports, imports = graph.sent(result.cut_off)
    one = len(result.cut_off) == 1
    yield ""
    yield f"  cut off  {zones_words(result.cut_off)}, which no counted pair leaves"
    yield (
        f"           {'it exports' if one else 'they export'} {amounts.mw(exports)} and "
        f"{'imports' if one else 'import'} {amounts.mw(imports)}: {amounts.mw(exports - imports)} too much"
    )


def zone_lines(result: IntuitiveResult) -> Iterator[str]:
    graph, _ = result.answered
    rows = [
        (
            f"zone {zone}",
            amounts.grains(price),
            amounts.scaled(graph.exports[zone], 1, 1),
            "cut off" if zone in result.cut_off else "",
        )
        for zone, price in enumerate(graph.prices)
    ]
    yield from explain_text.columns(("zone", "price, euros/MWh", "net position, MW", ""), rows)


def pair_lines(pairs: Pairs, graph: Graph) -> Iterator[str]:
    rows = []
    for index, (first, second) in enumerate(pairs.zones):
        prices = [amounts.grains(graph.prices[zone]) for zone in (first, second)]
        counts = "counts" if (first, second) in graph.counted else "does not count"
        rows.append((f"pair {index}", f"{first} to {second}", *prices, counts))
    yield from explain_text.columns(("pair", "zones", "first price", "second price", ""), rows, left=2)


def as_text(result: IntuitiveResult) -> str:
    if result.graph is None or result.pairs is None:
        return f"not answered; {result.cause}\n"
    lines = list(answer_lines(result))
    lines += explain_text.titled("Zones, export positive", zone_lines(result))
    title = f"Pairs, {printable(result.pairs.name)}"
    lines += explain_text.titled(title, pair_lines(result.pairs, result.graph) if result.pairs.zones else ["  none"])
    return "\n".join([*lines, "", NOT_PROVED]) + "\n"


def record(result: IntuitiveResult) -> schema.Record:
    """An hour for machines: MW with all their decimals, as text, as judge has euros."""
    answer, graph = result.answer, result.graph

    def mw(tenths: int | None) -> str | None:
        return None if tenths is None else amounts.fixed(tenths, schema.MW_DECIMALS)

    return schema.answer_record(
        schema.INTUITIVE,
        result,
        intuitive=answer.intuitive if answer else None,
        carried_mw=mw(answer.total if answer else None),
        exports_mw=mw(graph.to_carry if graph else None),
        not_carried_mw=mw(graph.to_carry - result.answered[1] if graph else None),
        cut_off=list(result.cut_off) if graph else None,
        pairs=[list(pair) for pair in result.pairs.zones] if result.pairs else None,
        counted=[list(pair) for pair in graph.counted] if graph else None,
        explanation=(f"0: {next(answer_lines(result))}" if graph else result.cause) or None,
    )
