"""The tables of an hour's zones, branches, links and families. Rows are sorted by what an analyst looks for, and those
past the first ones are folded.
"""

from __future__ import annotations

from collections.abc import Iterable, Sequence
from dataclasses import dataclass

from . import amounts, drawing, explain_text, hour, rules
from .page_judged import Judged
from .page_markup import cell, element, folded, row, table, text

MOST_ROWS = 12  # of a table, before the rest is folded

# How a branch or a link stands to its room, in the order of the rows: what the row says, and its kind.
STANDINGS = {
    "BROKEN": ("✗ over", "over"),
    "binding": ("■ binding", "binding"),
    "full": ("full", ""),
    "priced, not full": ("□ priced", ""),
    "": ("", ""),
}
COUNTED = {
    "BROKEN": "over",
    "binding": "binding",
    "full": "full without a price",
    "priced, not full": "priced and not full",
}


def shown_and_folded(head: Sequence[str], rows: Sequence[str], noun: str, kind: str) -> str:
    """The first rows of a table, and the rest folded."""
    made = table(head, rows[:MOST_ROWS], kind)
    if len(rows) > MOST_ROWS:
        more = f"{len(rows) - MOST_ROWS:,} more {noun}"
        made += folded(more, table(head, rows[MOST_ROWS:], kind))
    return made


# Zones.


def zone_row(sums: rules.Sums, zone: int, largest: int) -> str:
    cells = [cell(str(zone), name="th"), cell(amounts.grains(sums.prices[zone]))]
    cells.append(cell(drawing.amount_bar(sums.net[zone], largest, True)))
    cells += [cell(amounts.scaled(values[zone], 1, 1)) for values in (sums.net, sums.lta, sums.flow_based)]
    return row(cells)


def sum_row(sums: rules.Sums) -> str:
    exchanged = sum(net for net in sums.net if net > 0)
    cells = [cell("sum", name="th"), cell(""), cell(f"imports {amounts.mw(exchanged)}")]
    cells += [cell(amounts.scaled(sum(values), 1, 1)) for values in (sums.net, sums.lta, sums.flow_based)]
    return row(cells)


def zone_table(sums: rules.Sums) -> str:
    largest = max(abs(net) for net in sums.net)
    names = ("zone", "price, €/MWh", "export ← 0 → import", "net position, MW", "LTA part", "flow-based part")
    rows = [zone_row(sums, zone, largest) for zone in range(sums.zones)]
    return table(names, rows, "zone-table", sum_row(sums))


# Branches and links.


@dataclass(frozen=True)
class Use:
    """A branch or a link: its name, how much of its room is used, its shadow price or spread, and how it stands."""

    name: str
    amount: int
    room: int
    price: int
    price_words: str
    standing: str
    more: str = ""

    @property
    def rank(self) -> tuple[int, int, float]:
        """Broken rows come first, by their excess, then binding ones, by their price; the rest follows by its use."""
        place = list(STANDINGS).index(self.standing)
        first = self.amount - self.room if self.standing == "BROKEN" else self.price
        return place, -first, -(self.amount / self.room if self.room > 0 else 0)


def branch_uses(sums: rules.Sums) -> list[Use]:
    return [
        Use(
            f"branch {index}",
            load,
            room,
            branch.shadow,
            amounts.cents(branch.shadow),
            explain_text.standing(load, room, branch.shadow > 0),
        )
        for index, (branch, load, room) in enumerate(zip(sums.branches, sums.loads, sums.branch_rooms))
    ]


def link_uses(sums: rules.Sums) -> list[Use]:
    contracted = explain_text.has_contracted(sums)
    return [
        Use(
            f"link {index}, {link.source} → {link.sink}",
            use,
            room,
            spread,
            amounts.grains(spread),
            explain_text.standing(use, room, spread > 0, rules.WHOLE),
            explain_text.contracted_of(link) if contracted else "",
        )
        for index, (link, use, room, spread) in enumerate(zip(sums.links, sums.uses, sums.link_rooms, sums.spreads))
    ]


def use_row(use: Use, signed: bool, contracted: bool) -> str:
    words, kind = STANDINGS[use.standing]
    amount = f"{amounts.scaled(use.amount, 6, 1)} of {amounts.scaled(use.room, 6, 1)}"
    cells = [cell(use.name, name="th"), cell(drawing.bar(use.amount, use.room, signed)), cell(amount)]
    cells.append(cell(explain_text.use_of(use.amount, use.room)))
    cells += [cell(use.more)] * contracted
    return row([*cells, cell(use.price_words), cell(words)], kind)


def standing_words(uses: Iterable[Use], noun: str) -> str:
    """How many are over, binding, full or priced: '62 of 64 branches are binding'."""
    standings = [use.standing for use in uses]
    clauses = []
    for standing, words in COUNTED.items():
        count = standings.count(standing)
        if count:
            clauses.append(f"{count:,} {'is' if count == 1 else 'are'} {words}")
    if not clauses:
        return f"None of {amounts.counted(len(standings), noun)} is binding."
    first = clauses[0].split(" ", 1)
    clauses[0] = f"{first[0]} of {amounts.counted(len(standings), noun)} {first[1]}"
    return "; ".join(clauses) + "."


def use_table(uses: Sequence[Use], noun: str, plural: str, heads: tuple[str, str]) -> str:
    """The table of branches or links, with the line that counts those that are binding."""
    if not uses:
        return ""
    signed = any(min(use.amount, use.room) < 0 for use in uses)
    contracted = any(use.more for use in uses)
    names = [noun, "", heads[0], "use", *["contracted, MW"] * contracted, heads[1], ""]
    rows = [use_row(use, signed, contracted) for use in sorted(uses, key=lambda use: use.rank)]
    counted = element("p", text(standing_words(uses, noun)), "count")
    return counted + shown_and_folded(names, rows, plural, "uses contracted" if contracted else "uses")


def branch_table(sums: rules.Sums) -> str:
    return use_table(branch_uses(sums), "branch", "branches", ("load of room, MW", "shadow price, €/MWh"))


def link_table(sums: rules.Sums) -> str:
    return use_table(link_uses(sums), "link", "links", ("flow of room, MW", "spread, €/MWh"))


# Families.


def family_table(one: Judged, sums: rules.Sums) -> str:
    """The orders that have a parent, where a family list is given; those ahead of it first."""
    if one.families is None:
        return ""
    rows = list(explain_text.family_rows(sums, hour.parents_of(one.case, one.families)))
    if not rows:
        return element("p", "No order has a parent.", "soft")
    rows.sort(key=lambda cells: cells[-1] != "AHEAD")
    made = [
        row((cell(cells[0], name="th"), *map(cell, cells[1:-1]), cell("✗ ahead")), "over")
        if cells[-1]
        else row((cell(cells[0], name="th"), *map(cell, cells[1:])))
        for cells in rows
    ]
    names = ("order", "parent", "accepted", "of its parent", "")
    return shown_and_folded(names, made, "orders with a parent", "families")
