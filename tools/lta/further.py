"""What else is wrong with a refused hour, after the first cause. The library gives the verdict, which is that cause;
the rest is computed next to it, is not proved, and says so.

Every row of the verdict table is asked, at every place, on the values as they stand. A row is left unasked where a
field that it reads is wrong: nobody knows its value before it is mended. The gap, 26, is asked only of volumes, flows
and prices that are a clearing. A tolerance above the widest counts as the widest, and a share without a link as 0:
these have one remedy.
"""

from __future__ import annotations

from dataclasses import dataclass

from . import library, numbers
from .amounts import plural
from .causes import Disagreement, Explanation, Table

MARK = "computed next to the proved library"
MOST_PLACES = 3  # of a number that words name


@dataclass(frozen=True)
class Also:
    """The causes after the first, in the table's order, each in words and with its fields; and the numbers that could
    not be asked.
    """

    causes: tuple[Explanation, ...] = ()
    unasked: tuple[int, ...] = ()

    @property
    def places(self) -> dict[int, list[str]]:
        """The places of each number, in file order, each once; none where the number has no place."""
        found: dict[int, list[str]] = {}
        for cause in self.causes:
            known, place = found.setdefault(cause.number, []), place_of(cause)
            if place and place not in known:
                known.append(place)
        return found

    @property
    def words(self) -> str:
        """On one line: '22, 24 branch 1; not asked: 26'."""
        found = ", ".join(f"{number} {places_words(places)}".rstrip() for number, places in self.places.items())
        not_asked = f"; not asked: {runs(self.unasked)}" if self.unasked else ""
        return f"{found or 'nothing'}{not_asked}"

    @property
    def line(self) -> str:
        """The same as it stands under a verdict, marked."""
        return f"also: {self.words} ({MARK})"


def place_of(cause: Explanation) -> str:
    """Where a cause is: the record or zone at fault, or the header's field; empty where the number has no place."""
    counts = numbers.ROWS[cause.number].index
    return cause.place or (f"{counts} {cause.index}" if counts else "")


def places_words(places: list[str]) -> str:
    """The first of some places, and how many more there are: 'branches 1, 4, 9 and 2 more'."""
    if len(places) < 2:
        return "".join(places)
    # Records and zones have a number; the five fields of the header do not.
    shown = list(places)
    if " " in places[0]:
        noun = plural(places[0].split()[0])
        shown = [place.split()[1] for place in places[:MOST_PLACES]]
        shown[0] = f"{noun} {shown[0]}"
    rest = len(places) - len(shown)
    last = f"{rest} more" if rest else shown.pop()
    return f"{', '.join(shown)} and {last}"


def runs(asked: tuple[int, ...]) -> str:
    """Numbers in words, those that follow each other in the table's numbers as '6 to 8'."""
    known = sorted(numbers.VERDICTS)
    parts: list[list[int]] = []
    for number in sorted(set(asked)):
        if parts and known.index(number) == known.index(parts[-1][-1]) + 1:
            parts[-1].append(number)
        else:
            parts.append([number])
    return ", ".join(f"{part[0]} to {part[-1]}" if len(part) > 2 else ", ".join(map(str, part)) for part in parts)


def also(
    case: bytes, proposal: bytes, families: bytes | None = None, judgement: library.Judgement | None = None
) -> Also:
    """What else is wrong with an hour that the library refuses; of one that it accepts, nothing. Without a judgement
    the library is asked for one.
    """
    if judgement is None:
        judgement = library.judge(case, proposal, families)
    if judgement.accepted:
        return Also()
    table = Table(case, proposal, families, judgement)
    found = list(table.causes())
    first = (found[0].number, found[0].index) if found else (0, 0)
    if first != judgement.verdict:
        raise Disagreement("{} {}".format(*judgement.verdict), "{} {}".format(*first))
    return Also(tuple(found[1:]), tuple(table.unasked))
