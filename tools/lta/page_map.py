"""The map of an hour: zones on a circle with price and net position, and links as arrows as wide as their flow.
An arrow that ends at a wall is a link that is full at a positive spread: there power is held up.
"""

from __future__ import annotations

import math
from collections.abc import Iterator

from . import amounts, drawing, explain_text, rules
from .page_markup import element, short_place

BOX_WIDTH, BOX_HEIGHT = 60, 42
LEAST_RADIUS, MARGIN = 100, 4
ENLARGED = 1.2  # where there is room
MOST_LABELLED = 12  # links up to which each arrow has its flow written at it
PULL, ASIDE = 0.22, 0.07  # of a link's curve: towards the centre, and to the right of its way
LABEL_AT = 0.36  # of a link's way, so that labels do not meet where links cross
WIDEST = 4.5
STEPS = 64  # in which a curve is followed to the edge of a box

Point = tuple[float, float]

# How a link stands to its room: the kind of its arrow, and what is said of it.
KINDS = {"BROKEN": "over", "binding": "held", "full": "flow", "priced, not full": "flow", "": "flow"}


def short_power(tenths: int) -> str:
    """A net position that fits into a box, with its sign."""
    shown = amounts.scaled(tenths, 1, 1)
    if len(shown) > 8:
        shown = f"{tenths / 10:,.0f}" if abs(tenths) < 10_000_000 else f"{tenths / 1e7:,.2f}M"
    return f"+{shown}" if tenths > 0 else shown


def between(start: Point, end: Point, share: float) -> Point:
    return start[0] + (end[0] - start[0]) * share, start[1] + (end[1] - start[1]) * share


class Curve:
    """A link's way between the middles of two boxes: a quadratic curve, pulled towards the centre and to the right.
    So a link and its reverse lie apart.
    """

    def __init__(self, start: Point, end: Point, centre: Point) -> None:
        self.start, self.end = start, end
        x, y = between(between(start, end, 0.5), centre, PULL)
        along_x, along_y = end[0] - start[0], end[1] - start[1]
        self.control = x - ASIDE * along_y, y + ASIDE * along_x

    def at(self, share: float) -> Point:
        return between(between(self.start, self.control, share), between(self.control, self.end, share), share)

    def inside(self, share: float, middle: Point) -> bool:
        x, y = self.at(share)
        return abs(x - middle[0]) < BOX_WIDTH / 2 + 1 and abs(y - middle[1]) < BOX_HEIGHT / 2 + 1

    def path(self) -> str:
        """The part of the curve that lies outside both boxes."""
        shares = [step / STEPS for step in range(STEPS + 1)]
        first = next((share for share in shares if not self.inside(share, self.start)), 0.5)
        last = next((share for share in reversed(shares) if not self.inside(share, self.end)), 0.5)
        begin, end = self.at(first), self.at(last)
        # The control point of the part between two shares, by de Casteljau's construction.
        control = between(between(self.start, self.control, first), between(self.control, self.end, first), last)
        places = [f"{short_place(x)} {short_place(y)}" for x, y in (begin, control, end)]
        return f"M{places[0]}Q{places[1]} {places[2]}"


class Map:
    """The zones and links of an hour's sums."""

    def __init__(self, sums: rules.Sums, named: bool = True) -> None:
        self.sums, self.named = sums, named
        self.largest = max((link.flow for link in sums.links), default=0)
        circle = [self.on_circle(zone) for zone in range(sums.zones)]
        left, top = (min(place[axis] for place in circle) for axis in (0, 1))
        right, bottom = (max(place[axis] for place in circle) for axis in (0, 1))
        self.centre = BOX_WIDTH / 2 + MARGIN - left, BOX_HEIGHT / 2 + MARGIN - top
        self.width, self.height = right - left + BOX_WIDTH + 2 * MARGIN, bottom - top + BOX_HEIGHT + 2 * MARGIN

    def on_circle(self, zone: int) -> Point:
        """Zone 0 stands on top, and the others follow with the clock, as far apart as their boxes need."""
        if self.sums.zones < 2:
            return 0, 0
        apart = math.hypot(BOX_WIDTH + 4, BOX_HEIGHT + 6)
        radius = max(LEAST_RADIUS, apart / (2 * math.sin(math.pi / self.sums.zones)))
        turn = 2 * math.pi * zone / self.sums.zones - math.pi / 2
        return radius * math.cos(turn), radius * math.sin(turn)

    def place(self, zone: int) -> Point:
        x, y = self.on_circle(zone)
        return self.centre[0] + x, self.centre[1] + y

    def links(self) -> Iterator[tuple[str, str, str]]:
        """Each link's kind, arrow and label."""
        sums = self.sums
        for index, (link, use, room, spread) in enumerate(zip(sums.links, sums.uses, sums.link_rooms, sums.spreads)):
            kind = KINDS[explain_text.standing(use, room, spread > 0, rules.WHOLE)]
            if kind == "flow" and not link.flow:
                kind = "idle"
            curve = Curve(self.place(link.source), self.place(link.sink), self.centre)
            words = f"link {index}, zone {link.source} to zone {link.sink}: {amounts.mw(link.flow)} "
            words += f"of {amounts.load_mw(room)}, spread {amounts.grains(spread)} euros per MWh"
            title = element("title", words) if self.named else ""
            width = 1 + (WIDEST - 1) * link.flow / self.largest if link.flow else 1
            label = ""
            if link.flow and len(sums.links) <= MOST_LABELLED:
                x, y = curve.at(LABEL_AT)
                label = element("text", amounts.scaled(link.flow, 1, 1), x=x, y=y + 3.5)
            yield kind, element("path", title, d=curve.path(), stroke_width=width), label

    def zone(self, zone: int) -> str:
        """A box: an exporter's has square corners, an importer's round ones."""
        x, y = self.place(zone)
        net = self.sums.net[zone]
        kind, corner = ("exports", {}) if net < 0 else ("imports" if net else "even", {"rx": "11"})
        size = {"width": str(BOX_WIDTH), "height": str(BOX_HEIGHT), **corner}
        body = element("rect", "", kind, x=x - BOX_WIDTH / 2, y=y - BOX_HEIGHT / 2, **size)
        rows = (("zone", f"zone {zone}", -9), ("price", drawing.short_price(self.sums.prices[zone]), 4))
        for kind, words, down in (*rows, ("net", short_power(net), 16)):
            body += element("text", words, kind, x=x, y=y + down)
        return body

    def words(self) -> str:
        flowing = sum(link.flow > 0 for link in self.sums.links)
        links = f"{amounts.counted(len(self.sums.links), 'link')}, {flowing} of them with a flow"
        zones = amounts.counted(self.sums.zones, "zone")
        return f"Map of {zones} and {links}; the tables of zones and links have the numbers"

    def drawing(self) -> str:
        groups: dict[str, str] = {"idle": "", "flow": "", "held": "", "over": ""}
        labels = ""
        for kind, arrow, label in self.links():
            groups[kind] += arrow
            labels += label
        body = "".join(element("g", arrows, kind) for kind, arrows in groups.items() if arrows)
        body += "".join(self.zone(zone) for zone in range(self.sums.zones))
        body += element("g", labels, "flows") if labels else ""
        centred = element("g", body, text_anchor="middle")
        return drawing.drawn("map", self.words(), centred, self.width, self.height, ENLARGED)


def sample(kind: str, body: str) -> str:
    """A sample of what the map draws, for its legend."""
    return element("svg", body, kind, viewBox="0 0 34 14", aria_hidden="true")


def arrow_sample(kind: str) -> str:
    return sample("map", element("g", element("path", "", d="M1 7H30", stroke_width="2.5"), kind))


def box_sample(kind: str, **corner: str) -> str:
    return sample("map", element("rect", "", kind, x="6", y="1", width="20", height="12", **corner))


def legend(sums: rules.Sums) -> str:
    """What the boxes and arrows of this map are."""
    links = list(Map(sums, False).links())
    kinds = {kind for kind, _, _ in links}
    rows = [(box_sample("exports"), "exports"), (box_sample("imports", rx="5"), "imports")]
    arrows = (
        ("flow", "flow, wider for more"),
        ("held", "full at a positive spread: held up"),
        ("over", "over its room"),
        ("idle", "no flow"),
    )
    rows += [(arrow_sample(kind), words) for kind, words in arrows if kind in kinds]
    return element("ul", "".join(element("li", drawn + words) for drawn, words in rows), "legend")
