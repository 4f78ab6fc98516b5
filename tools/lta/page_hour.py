"""The page of an hour: the verdict, what is wrong, five figures, the map, the tables and the order curves."""

from __future__ import annotations

from collections.abc import Iterator, Mapping

from . import amounts, drawing, explain_text, hour, library, page_map, page_network, page_wrong, rules
from .page_judged import Judged
from .page_markup import below, element, euros, facts, folded, part, sentence, text
from .results import LEFT_OUT, Result

MOST_BESIDE = 16  # zones, branches and links up to which all tables stand next to the map
MOST_DRAWN = 64  # orders up to which a page of many hours has their curves
MOST_OPEN = 4  # zones up to which the order curves are not folded

ZONES_NOTE = "Import is positive. The LTA part goes over the links, the flow-based part over the branches."
CURVES_NOTE = "Price in € per MWh over MWh: buys from the dearest down, sells from the cheapest up."
CURVES_LEFT_OUT = "Left out here for their size: lta page of this hour alone has them."
BRANCHES_NOTE = "Load of the flow-based part against the flow-based share of the margin, which ends at the tick."
LINKS_NOTE = "Flow against the LTA share of the capacity, which ends at the tick."
CONTRACTED_NOTE = " Contracted volumes are what is owed for; they limit no flow."
FAMILIES_NOTE = "An order is accepted in no larger fraction than its parent. The bound takes no notice of families."


# The verdict.


def answer_words(judgement: library.Judgement) -> str:
    return "✓ Accepted" if judgement.accepted else f"✗ Refused by {judgement.number}"


def fact_words(one: Judged) -> Iterator[str]:
    """The index, the counts where the header is good, of a clearing the share and the tolerance, and the sizes."""
    if one.judgement.index:
        yield f"index {one.judgement.index}"
    if rules.header_good(one.case):
        counts = hour.case_counts(one.case)
        yield amounts.counted(counts["zones"], "zone")
        for kind, name in hour.RECORDS["case"]:
            yield amounts.counted(counts[name], kind)
    if one.sums is not None:
        yield f"LTA share {amounts.per_cent(one.sums.share)}"
        yield f"tolerance {euros(one.sums.tolerance)}"
    yield f"case {amounts.counted(len(one.case), 'byte')}"
    yield f"proposal {amounts.counted(len(one.proposal), 'byte')}"
    if one.families is not None:
        yield f"family list {amounts.counted(len(one.families), 'byte')}"
    else:
        yield "family list left out" if one.rows[-1].families == LEFT_OUT else "no family list"


def due_words(missed: Result) -> str:
    """What was expected and is not so. The answer to the joined file is not otherwise on the page."""
    if missed.way != "joined":
        return missed.due()
    answered = "{} {}".format(*missed.judgement.verdict) if missed.judgement else ""
    return f"{missed.due()} of the joined file, which is answered {answered}"


def expected_words(one: Judged) -> str:
    if one.as_expected is None:
        return ""
    words = "✓ as its text expects"
    if one.missed:
        words = "✗ its text expects " + "; ".join(map(due_words, one.missed))
    return element("p", words, "good-text" if one.as_expected else "bad-text")


def verdict(one: Judged, level: str) -> str:
    """The verdict in the largest type, the file below it, and the sentence."""
    body = element(level, answer_words(one.judgement), "answer") + element("p", text(one.name), "path")
    body += element("p", text(sentence(one.words)), "words") + expected_words(one) + facts(fact_words(one))
    return element("div", body, f"verdict {'good' if one.accepted else 'bad'}") + "\n"


# Five figures.


def rent_words(totals: Mapping[str, int]) -> str:
    above = totals["rent"] - totals["owed"]
    return f"{euros(abs(above))} {'above' if above >= 0 else 'below'} owed"


def owed_words(sums: rules.Sums) -> str:
    if not sums.links:
        return f"no link: the bound has the branch total alone, {euros(sums.branch_total)}"
    words = f"{amounts.counted(sum(spread > 0 for spread in sums.spreads), 'link')} with a positive spread"
    if explain_text.has_contracted(sums):
        words += f"; by contracted volumes, the link total by capacities is {euros(sums.link_total)}"
    return words


def figure(level: str, name: str, amount: int, bar: str, words: str) -> str:
    body = element(level, name) + element("p", euros(amount), "big") + bar + element("p", words, "soft")
    return element("div", body, "figure")


def figures(level: str, one: Judged, sums: rules.Sums) -> str:
    """Welfare, bound, gap, rent and owed. Welfare and bound share a scale, and rent and owed share one. The gap has its
    own, on which the tolerance is the tick.
    """
    totals = one.judgement.totals

    def on_scale(name: str, other: str, words: str) -> str:
        pair = [totals[name], totals[other]]
        bar = drawing.amount_bar(pair[0], max(abs(amount) for amount in pair), min(pair) < 0)
        return figure(level, name, pair[0], bar, words)

    made = on_scale("welfare", "bound", "accepted buys less accepted sells")
    made += on_scale("bound", "welfare", "no clearing has more welfare" if one.accepted else "welfare plus gap")
    tolerance = f"{'within' if one.accepted else 'over'} the tolerance of {euros(sums.tolerance)}"
    made += figure(level, "gap", totals["gap"], drawing.bar(totals["gap"], sums.tolerance, False), tolerance)
    made += on_scale("rent", "owed", rent_words(totals)) + on_scale("owed", "rent", owed_words(sums))
    return element("div", made, "figures")


# Zones.


def position_words(net: int) -> str:
    if net == 0:
        return "in balance"
    return f"{'← imports' if net > 0 else '→ exports'} {amounts.mw(abs(net))}"


def zone_curves(sums: rules.Sums, zone: int, named: bool) -> str:
    orders = [(index, order) for index, order in enumerate(sums.orders) if order.zone == zone]
    if not orders:
        return element("p", "no order", "soft")
    curves = drawing.Curves(zone, orders, sums.prices[zone], named)
    outside = f"{amounts.counted(curves.outside, 'order')} drawn at the frame, with prices past it"
    return curves.drawing() + (element("p", outside, "soft") if curves.outside else "")


def zone_card(level: str, sums: rules.Sums, zone: int, named: bool) -> str:
    chip = element("span", position_words(sums.net[zone]), "chip")
    body = element("header", element(level, f"Zone {zone}") + chip)
    return element("div", body + zone_curves(sums, zone, named), "card")


def curves_legend() -> str:
    """What the lines and hatchings of a curve are."""

    def line(kind: str, start: int, end: int) -> str:
        return element("path", "", kind, d=f"M{start} 7H{end}")

    def block(kind: str, start: int, end: int) -> str:
        return element("path", "", kind, d=f"M{start} 0H{end}V14H{start}z")

    rows = (
        (line("stair buys", 0, 34), "buys"),
        (line("stair sells", 0, 34), "sells"),
        (line("taken buys", 0, 17) + line("taken sells", 17, 34), "accepted (thick)"),
        (block("gain-buys", 0, 17) + block("gain-sells", 17, 34), "gain at the zone price"),
        (block("gain-loss", 0, 34), "accepted at a loss"),
        (line("price", 0, 34), "zone price"),
    )
    shown = (page_map.sample("chart", body) + words for body, words in rows)
    return element("ul", "".join(element("li", item) for item in shown), "legend")


def curves(level: str, sums: rules.Sums, named: bool) -> str:
    if not sums.orders:
        return ""
    if not named and len(sums.orders) > MOST_DRAWN:
        return part(level, "Order curves", element("p", CURVES_LEFT_OUT, "note"))
    cards = "".join(zone_card(below(level), sums, zone, named) for zone in range(sums.zones))
    body = element("p", CURVES_NOTE, "note") + curves_legend() + element("div", cards, "cards")
    shown = folded(f"Buys and sells of {amounts.counted(sums.zones, 'zone')}", body, sums.zones <= MOST_OPEN)
    return part(level, "Order curves", shown)


# All of it.


def network(level: str, one: Judged, sums: rules.Sums, named: bool) -> str:
    """Where power goes and where it is held up: the map with the zones, and the branches with the links."""
    drawn = page_map.Map(sums, named).drawing() + page_map.legend(sums)
    links_note = LINKS_NOTE + (CONTRACTED_NOTE if explain_text.has_contracted(sums) else "")
    body = part(level, "Map", drawn, "Price in €/MWh and net position in MW, import positive.", "map-part")
    body += part(level, "Zones", page_network.zone_table(sums), ZONES_NOTE)
    body += part(level, "Branches", page_network.branch_table(sums), BRANCHES_NOTE)
    body += part(level, "Links", page_network.link_table(sums), links_note)
    small = sums.zones + len(sums.branches) + len(sums.links) <= MOST_BESIDE
    pair = element("div", body, "network small" if small else "network")
    return pair + part(level, "Families", page_network.family_table(one, sums), FAMILIES_NOTE)


def hour_body(one: Judged, level: str, named: bool) -> str:
    """All of an hour that stands under its verdict. What is wrong comes first."""
    body, sums = page_wrong.wrong(level, one), one.sums
    if sums is None:
        return body
    if one.reported:
        body += part(level, "Figures", figures(below(level), one, sums), kind="figures-part")
    rest = network(level, one, sums, named)
    if one.accepted:
        rest += page_wrong.gap_part(level, one)
    return body + element("div", rest + curves(level, sums, named), "rest")
