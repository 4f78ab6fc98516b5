"""What is wrong with a refused hour, first on its page: for 26 the parts of the gap, for 21 to 28 the row with value,
limit and excess, for all others the bytes at fault.
"""

from __future__ import annotations

from collections.abc import Callable, Sequence
from dataclasses import dataclass

from . import amounts, drawing, explain_text, gap, hour, rules
from .causes import Explanation, Field
from .further import MARK, place_of, runs
from .page_judged import Judged
from .page_markup import cell, element, euros, folded, part, row, sentence, table, text

MOST_FIELDS = 20  # of those that a field is held to
MOST_CAUSES = 8  # after the first, before the rest is folded
MOST_PARTS = 8  # of a gap, before the rest is folded


# The bytes.


def marked_bytes(data: bytes, field: Field) -> str:
    """The bytes around a field with its own marked."""
    lines = []
    for start, row_bytes in explain_text.hex_rows(data, field):
        shown = " ".join(element("mark", f"{byte:02x}") if own else f"{byte:02x}" for byte, own in row_bytes)
        offset = element("span", f"{start:>6} 0x{start:04x}  ", "offset")
        lines.append(offset + shown.replace("</mark> <mark>", " "))
    return element("pre", "\n".join(lines))


def field_list(one: Judged) -> str:
    """The field at fault, its value and limit and the bytes around it, and the fields that it is held to."""
    if one.explanation is None or not one.explanation.fields:
        return ""
    first, *others = one.explanation.fields
    rows = [("field", first.name), ("value", first.value), ("limit", first.limit), ("place", first.place())]
    rows += [("with", f"{other.name}: {other.value}; {other.place()}") for other in others[:MOST_FIELDS]]
    if len(others) > MOST_FIELDS:
        rows.append(("with", f"and {len(others) - MOST_FIELDS} more"))
    if one.joined and any(field.file == "proposal" for field in one.explanation.fields):
        rows.append(("joined", explain_text.joined_words(one.case)))
    body = "".join(element("dt", name) + element("dd", text(words)) for name, words in rows if words)
    files = {"case": one.case, "proposal": one.proposal, "families": one.families}
    data = files[first.file]
    shown = marked_bytes(data, first) if first.size and data is not None else ""
    return element("div", element("dl", body, "where") + shown, "card")


# The row with value, limit and excess.


@dataclass(frozen=True)
class Excess:
    """An amount that is past its limit: what it is, how such an amount is told, and the two. The limit of a price that
    is too low is above it.
    """

    what: str
    told: Callable[[int], str]
    amount: int
    limit: int

    def table(self) -> str:
        bar = drawing.bar(self.amount, self.limit, min(self.amount, self.limit) < 0)
        cells = [cell(text(sentence(self.what)), name="th"), cell(bar)]
        cells += [cell(self.told(amount)) for amount in (self.amount, self.limit, abs(self.amount - self.limit))]
        return table(("what is past its limit", "", "value", "limit", "excess"), [row(cells)], "excess")


def volume_excess(sums: rules.Sums, index: int) -> Excess:
    order = sums.orders[index]
    side = "buys" if order.buys else "sells"
    what = f"order {index}, zone {order.zone} {side}: accepted volume against its quantity"
    return Excess(what, amounts.mwh, order.volume, order.quantity)


def balance_excess(sums: rules.Sums, _: int) -> Excess:
    bought = sum(order.volume for order in sums.orders if order.buys)
    sold = sum(order.volume for order in sums.orders if not order.buys)
    what = "volumes bought against volumes sold" if bought > sold else "volumes sold against volumes bought"
    return Excess(what, amounts.mwh, max(bought, sold), min(bought, sold))


def share_excess(sums: rules.Sums, _: int) -> Excess:
    return Excess("LTA share in an hour without links", amounts.per_cent, sums.share, 0)


def link_excess(sums: rules.Sums, index: int) -> Excess:
    link = sums.links[index]
    what = f"link {index}, zone {link.source} to zone {link.sink}: flow against the LTA share of its capacity"
    return Excess(what, amounts.load_mw, sums.uses[index], sums.link_rooms[index])


def branch_excess(sums: rules.Sums, index: int) -> Excess:
    what = f"branch {index}: load against the flow-based share of its margin"
    return Excess(what, amounts.load_mw, sums.loads[index], sums.branch_rooms[index])


def price_excess(sums: rules.Sums, index: int) -> Excess:
    least, greatest = rules.ZONE_PRICE
    price = sums.prices[index]
    limit = greatest if price > greatest else least
    what = f"zone {index}: price against its limit"
    return Excess(what, lambda grains: f"{amounts.grains(grains)} €/MWh", price, limit)


def fraction_excess(one: Judged, sums: rules.Sums, index: int) -> Excess:
    """What is accepted of a child, and the most that its parent's fraction allows."""
    parent = hour.parents_of(one.case, one.families or b"")[index] or 0
    child, above = sums.orders[index], sums.orders[parent]
    most = above.volume * child.quantity // above.quantity
    what = f"order {index}: accepted volume against the fraction of its parent, order {parent}"
    return Excess(what, amounts.mwh, child.volume, most)


EXCESSES = {
    21: volume_excess,
    22: balance_excess,
    23: link_excess,
    24: branch_excess,
    25: price_excess,
    27: share_excess,
}


def excess_of(one: Judged) -> Excess | None:
    """The row of a refusal by 21 to 28; that of 26 is the gap."""
    number, index = one.judgement.verdict
    if one.sums is None:
        return None
    if number == 26:
        return Excess("gap against the tolerance", euros, one.judgement.totals["gap"], one.sums.tolerance)
    if number == 28:
        return fraction_excess(one, one.sums, index)
    return EXCESSES[number](one.sums, index) if number in EXCESSES else None


# The gap.


def gap_row(name: str, amount: int, whole: int, largest: int) -> str:
    bar = drawing.amount_bar(amount, largest)
    share = f"{100 * amount / (rules.WHOLE * whole):.1f} %"
    return row((cell(text(name), name="th"), cell(bar), cell(amounts.gap_part(amount)), cell(share)))


def gap_table(sums: rules.Sums, parts: gap.Parts) -> str:
    """The parts of the gap, largest first, those past the first ones folded."""
    if not parts.gap:
        return ""
    named = sorted(explain_text.part_rows(sums, parts), key=lambda named_part: -named_part[1])
    largest = named[0][1]
    names = ("what falls short", "", "euros", "of the gap")
    rows = [gap_row(name, amount, parts.gap, largest) for name, amount in named]
    shown, rest = table(names, rows[:MOST_PARTS], "gap"), named[MOST_PARTS:]
    if not rest:
        return shown
    together = amounts.gap_part(sum(amount for _, amount in rest))
    summary = f"{amounts.counted(len(rest), 'more part')}, {together} € together"
    return shown + folded(summary, table(names, rows[MOST_PARTS:], "gap"))


def gap_words(one: Judged) -> str:
    """What the gap is made of, and whose the parts are."""
    parts = one.parts
    if parts is None or one.sums is None:
        return ""
    words = "The parts, largest first, sum to the gap. An order, branch or link falls short by what it could have "
    words += "earned more at the zone prices. The bound takes the larger of branch total and "
    words += f"{explain_text.link_total_name(one.sums)} whole, and the hour takes each by its share."
    if not parts.from_library:
        words += " The library gives no shortfalls of a refused hour: these are computed next to it."
    return words


def gap_part(level: str, one: Judged) -> str:
    """The section of an accepted hour."""
    if one.sums is None or one.parts is None:
        return ""
    return part(level, "Parts of the gap", gap_table(one.sums, one.parts), gap_words(one))


# All of it.


def first_cause(one: Judged) -> str:
    """What the verdict is about: a row of what is past its limit, for 26 with the parts of the gap; else the bytes."""
    excess = excess_of(one)
    if excess is None:
        return field_list(one)
    if one.sums is not None and one.parts is not None:
        return excess.table() + element("p", text(gap_words(one)), "note") + gap_table(one.sums, one.parts)
    return excess.table() + folded("Where it stands in the files", field_list(one))


def wrong(level: str, one: Judged) -> str:
    """What is wrong, first of all on the page of a refused hour, and what else is."""
    return "" if one.accepted else part(level, "What is wrong", first_cause(one)) + also_wrong(level, one)


def cause_item(cause: Explanation) -> str:
    place = place_of(cause)
    words = f"{place}: {cause.cause}" if place and not cause.cause.startswith(place) else cause.cause
    return element("li", element("b", str(cause.number)) + " " + text(sentence(words)))


def cause_list(causes: Sequence[Explanation]) -> str:
    return element("ul", "".join(map(cause_item, causes)), "causes")


def also_wrong(level: str, one: Judged) -> str:
    """What else is wrong with the hour, after the first cause; nothing is said where there is no explanation."""
    causes, unasked = one.also.causes, one.also.unasked
    body = cause_list(causes[:MOST_CAUSES]) if causes else element("p", "Nothing.")
    if len(causes) > MOST_CAUSES:
        body += folded(f"{len(causes) - MOST_CAUSES:,} more", cause_list(causes[MOST_CAUSES:]))
    if unasked:
        body += element("p", f"Not asked: {runs(unasked)}. What it reads is not in order.", "note")
    return part(level, "What else is wrong", body, f"{sentence(MARK)}.") if one.explanation else ""
