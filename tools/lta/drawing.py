"""What a page draws, as SVG: bars of an amount against its room, the curves of an order book, and prices through the
hours. Nothing is told by colour alone: a shape, a hatching or a word says it too. A bar stands next to its numbers and
is hidden from readers of text; every other drawing has its words.
"""

from __future__ import annotations

import math
from collections.abc import Callable, Iterable, Iterator, Sequence

from . import amounts, rules
from .page_markup import element, short_place, text

WIDTH, HEIGHT = 380, 220
LEFT, RIGHT, TOP, BOTTOM = 46, 64, 12, 28
FLOOR, END = HEIGHT - BOTTOM, WIDTH - RIGHT
SEEN = 3  # per cent of a bar, as wide as an excess is at least drawn
CENTS_PER_EURO, GRAINS_PER_EURO = 100, 10_000_000

IndexedOrder = tuple[int, rules.Order]


def drawn(kind: str, words: str, body: str, width: float, height: float, enlarged: float = 1) -> str:
    """A drawing with its words, as wide as it is, or enlarged, unless its room is narrower."""
    size = {"viewBox": f"0 0 {width:.0f} {height:.0f}", "width": f"{enlarged * width:.0f}"}
    return element("svg", body, kind, role="img", aria_label=words, **size)


def hatching(name: str, turn: int, *lines: str) -> str:
    """A pattern by name: its ground, and lines across it."""
    ground = element("rect", "", f"{name}-ground", width="6", height="6")
    size = {"width": "6", "height": "6", "patternUnits": "userSpaceOnUse"}
    return element("pattern", ground + "".join(lines), id=name, patternTransform=f"rotate({turn})", **size)


def stripe(name: str, width: str) -> str:
    return element("rect", "", f"{name}-line", width=width, height="6")


def arrow_head(name: str, shape: str) -> str:
    """The end of a link on the map."""
    size = {"markerWidth": "12", "markerHeight": "10", "refX": "9", "refY": "5", "markerUnits": "userSpaceOnUse"}
    return element("marker", element("path", "", name, d=shape), id=name, orient="auto", **size)


def defined() -> str:
    """Defined once in a page: the hatchings of gains, losses and excesses, and the heads of the map's arrows."""
    crossed = element("path", "", "loss-line", d="M0 0L6 6M6 0L0 6")
    patterns = hatching("buys", 45, stripe("buys", "1.6")) + hatching("sells", -45, stripe("sells", "1.6"))
    patterns += hatching("loss", 0, crossed) + hatching("over", 45, stripe("over", "2.4"))
    heads = arrow_head("head", "M1 1L9 5L1 9z") + arrow_head("held-head", "M0 1L7 5L0 9zM8 0H10.5V10H8z")
    heads += arrow_head("over-head", "M1 1L9 5L1 9z")
    body = element("defs", patterns + heads)
    return element("svg", body, "defined", width="0", height="0", aria_hidden="true") + "\n"


# Bars. Places are per cent, so that a bar is as wide as its room on the page and nothing in it is stretched.


def span(start: float, end: float, kind: str = "", least: float = 0) -> str:
    low, high = sorted((start, end))
    high = max(high, low + least)
    return element("rect", "", kind, x=f"{short_place(low)}%", width=f"{short_place(high - low)}%")


def tick(place: float) -> str:
    return element("rect", "", "limit", x=f"{short_place(place)}%")


def scale(largest: int, signed: bool, margin: float = 1.0) -> Callable[[int], float]:
    """Where a number stands on a bar whose largest is given. If numbers may be negative, zero stands in the middle."""

    def place(number: int) -> float:
        share = number / largest if largest else 0
        return 100 * ((share / margin + 1) / 2 if signed else share / margin)

    return place


def bar_of(body: str, signed: bool) -> str:
    return element("svg", body, "bar signed" if signed else "bar", aria_hidden="true")


def bar(amount: int, room: int, signed: bool) -> str:
    """An amount from zero on, and where its room ends."""
    place = scale(max(abs(amount), abs(room)), signed, 1.06)
    if amount <= room:
        body = span(place(0), place(amount))
    else:
        # A room below zero is one that the amount must be further below.
        inside = amount if amount < 0 else max(room, 0)
        body = span(place(0), place(inside)) + span(place(room), place(amount), "excess", SEEN)
    return bar_of(body + tick(place(room)), signed)


def amount_bar(amount: int, largest: int, signed: bool = False) -> str:
    """An amount on a scale that others next to it share."""
    place = scale(largest, signed)
    return bar_of(span(place(0), place(amount)), signed)


# Charts.


def round_steps(low: float, high: float, count: int) -> list[float]:
    """Round numbers that lie between two, about as many as asked for."""
    if not high > low:
        return [low]
    raw = (high - low) / count
    unit = 10.0 ** math.floor(math.log10(raw))
    step = next((unit * factor for factor in (1, 2, 2.5, 5) if unit * factor >= raw), unit * 10)
    first, last = math.ceil(low / step - 1e-9), math.floor(high / step + 1e-9)
    return [step * number for number in range(first, last + 1)]


def short_number(number: float) -> str:
    if abs(number) >= 1e6:
        return f"{number / 1e6:,.4g}M"
    return f"{int(number):,}" if number == int(number) else f"{number:,.4g}"


def short_price(grains: int) -> str:
    """A price to a cent, for a drawing; a table next to it has all decimals."""
    cents = (abs(grains) + rules.GRAINS_PER_CENT // 2) // rules.GRAINS_PER_CENT
    return amounts.cents(-cents if grains < 0 else cents)


def frame(orders: Sequence[rules.Order], price: float) -> tuple[float, float, int]:
    """The lowest and the highest price that a chart shows, in euros, and how many orders lie outside. Far orders, as
    price takers send them, would press all others flat: the frame ends not far past the middle of the quantities.
    """
    rows = sorted((order.price / CENTS_PER_EURO, order.quantity) for order in orders)
    total, seen, middle = sum(quantity for _, quantity in rows), 0, [price]
    for euros, quantity in rows:
        if seen <= 0.9 * total and seen + quantity >= 0.1 * total:
            middle.append(euros)
        seen += quantity
    reach = 1.5 * max(max(middle) - min(middle), 5)
    low = min(max(rows[0][0], min(middle) - reach), price)
    high = max(min(rows[-1][0], max(middle) + reach), price)
    margin = max((high - low) * 0.08, 0.04 * abs(price), 1)
    return low - margin, high + margin, sum(not low <= euros <= high for euros, _ in rows)


def price_axis(low: float, high: float, y: Callable[[float], float], left: float, end: float) -> str:
    """Lines at round prices across a chart, with the prices at its left."""
    steps = round_steps(low, high, 5)
    grid = "".join(f"M{short_place(left)} {short_place(y(euros))}H{short_place(end)}" for euros in steps)
    labels = (element("text", short_number(euros), x=left - 5, y=y(euros) + 3.5) for euros in steps)
    return element("path", "", "grid", d=grid) + element("g", "".join(labels), text_anchor="end")


class Curves:
    """The buys and sells of a zone as two stairs, with their accepted parts drawn thick, and the price. The price is
    written at the right of the frame, where no curve runs.
    """

    def __init__(self, zone: int, orders: Sequence[IndexedOrder], price: int, named: bool = True) -> None:
        self.zone, self.grains, self.price, self.named = zone, price, price / GRAINS_PER_EURO, named
        self.buys = sorted((order for order in orders if order[1].buys), key=lambda order: -order[1].price)
        self.sells = sorted((order for order in orders if not order[1].buys), key=lambda order: order[1].price)
        self.low, self.high, self.outside = frame([order for _, order in orders], self.price)
        self.most = max(sum(order.quantity for _, order in side) for side in (self.buys, self.sells))

    def x(self, volume: float) -> float:
        return LEFT + (END - LEFT) * volume / self.most

    def y(self, euros: float) -> float:
        inside = min(max(euros, self.low), self.high)
        return TOP + (FLOOR - TOP) * (self.high - inside) / (self.high - self.low)

    def axes(self) -> str:
        volumes = [volume * 10 for volume in round_steps(0, self.most / 10, 3)]
        ticks = "".join(f"M{short_place(self.x(volume))} {FLOOR}v4" for volume in volumes)
        labels = (element("text", short_number(volume / 10), x=self.x(volume), y=FLOOR + 15) for volume in volumes)
        body = element("path", "", "grid", d=ticks) + element("g", "".join(labels), text_anchor="middle")
        body += price_axis(self.low, self.high, self.y, LEFT, END)
        return body + element("path", "", "axis", d=f"M{LEFT} {FLOOR}H{END}")

    def steps(self, orders: Iterable[IndexedOrder]) -> Iterator[tuple[int, rules.Order, int, int, int]]:
        """Each order of a stair with the volumes at which its step begins, its accepted part ends, and it ends."""
        volume = 0
        for index, order in orders:
            yield index, order, volume, volume + min(order.volume, order.quantity), volume + order.quantity
            volume += order.quantity

    def gains(self, kind: str, orders: Sequence[IndexedOrder]) -> str:
        """What the accepted parts gain at the zone price, and what they lose."""
        shapes, level = {kind: "", "loss": ""}, short_place(self.y(self.price))
        for _, order, start, taken, _ in self.steps(orders):
            euros = order.price / CENTS_PER_EURO
            loses = euros < self.price if order.buys else euros > self.price
            y = short_place(self.y(euros))
            if taken > start and y != level:
                left, right = short_place(self.x(start)), short_place(self.x(taken))
                shapes["loss" if loses else kind] += f"M{left} {level}V{y}H{right}V{level}z"
        return "".join(element("path", "", f"gain-{shape}", d=d) for shape, d in shapes.items() if d)

    def stair(self, kind: str, orders: Sequence[IndexedOrder]) -> str:
        """The whole stair thin, and its accepted parts thick."""
        whole = thick = ""
        for _, order, start, taken, end in self.steps(orders):
            y = short_place(self.y(order.price / CENTS_PER_EURO))
            whole += (f"V{y}" if whole else f"M{short_place(self.x(start))} {y}") + f"H{short_place(self.x(end))}"
            if taken > start:
                thick += f"M{short_place(self.x(start))} {y}H{short_place(self.x(taken))}"
        return "".join(
            element("path", "", f"{line} {kind}", d=d) for line, d in (("stair", whole), ("taken", thick)) if d
        )

    def names(self, orders: Sequence[IndexedOrder]) -> str:
        """What each order is, where it is pointed at."""
        body = ""
        for index, order, start, _, end in self.steps(orders) if self.named else ():
            words = f"order {index}: {'buys' if order.buys else 'sells'} {amounts.mwh(order.quantity)} "
            words += f"at {amounts.cents(order.price)}, accepted {amounts.mwh(order.volume)}"
            wide = max(self.x(end) - self.x(start), 1)
            place = {"x": self.x(start), "y": TOP, "width": wide, "height": FLOOR - TOP}
            body += element("rect", element("title", words), "touch", **place)
        return body

    def price_line(self) -> str:
        y = self.y(self.price)
        line = element("path", "", "price", d=f"M{LEFT} {short_place(y)}H{END}")
        return line + element("text", short_price(self.grains), "price", x=END + 4, y=y + 4)

    def drawing(self) -> str:
        sides = (("buys", self.buys), ("sells", self.sells))
        body = self.axes() + "".join(self.gains(*side) for side in sides)
        body += "".join(self.stair(*side) for side in sides) + self.price_line()
        body += "".join(self.names(orders) for _, orders in sides)
        counts = f"{amounts.counted(len(self.buys), 'buy')}, {amounts.counted(len(self.sells), 'sell')}"
        words = f"Order curves of zone {self.zone}: {counts}, price {short_price(self.grains)} euros per MWh"
        return drawn("chart", words, body, WIDTH, HEIGHT)


# Prices through the hours of an area.

DASHES = 4  # ways in which the lines of zones differ
LABEL_STEP = 11  # between two labels, so that they do not collide
CHART_WIDTH, CHART_RIGHT = 360, 36


def hour_labels(names: Sequence[str]) -> list[str]:
    """What the hours' names differ by, for an axis: their common beginning and ending are left out."""
    first, last = min(names), max(names)
    begin = next((at for at, (one, other) in enumerate(zip(first, last)) if one != other), min(len(first), len(last)))
    while begin and first[begin - 1].isdigit():
        begin -= 1
    turned = [name[::-1] for name in names]
    least, most = min(turned), max(turned)
    end = next((at for at, (one, other) in enumerate(zip(least, most)) if one != other), 0)
    while end and least[end - 1].isdigit():
        end -= 1
    labels = [name[begin : len(name) - end] for name in names]
    if any(len(label) > 5 for label in labels) or len(set(labels)) < len(labels):
        return [str(at + 1) for at in range(len(names))]
    return labels


def spread_labels(wanted: Sequence[float], low: float, high: float) -> list[float]:
    """Places for labels near where they are wanted, a step apart, in the same order."""
    order = sorted(range(len(wanted)), key=lambda at: wanted[at])
    step = min(LABEL_STEP, (high - low) / max(len(wanted) - 1, 1))
    places, least = [0.0] * len(wanted), low
    for at in order:
        places[at] = max(wanted[at], least)
        least = places[at] + step
    most = high
    for at in reversed(order):
        places[at] = min(places[at], most)
        most = places[at] - step
    return places


class AreaPrices:
    """The prices of an area's zones through its hours: a stair for each zone, with its number at its end. An hour
    without a report leaves a hole.
    """

    def __init__(self, area: str, names: Sequence[str], prices: Sequence[tuple[int, ...]]) -> None:
        self.area, self.names = area, names
        self.euros = [[price / GRAINS_PER_EURO for price in row] if row else None for row in prices]
        known = [price for row in self.euros if row for price in row]
        self.zones = max(len(row) for row in self.euros if row)
        self.least, self.greatest = min(known), max(known)
        margin = max((self.greatest - self.least) * 0.05, 0.5)
        self.low, self.high = self.least - margin, self.greatest + margin
        self.height = max(150, TOP + BOTTOM + 1.25 * LABEL_STEP * self.zones)
        self.end = CHART_WIDTH - CHART_RIGHT

    def x(self, at: float) -> float:
        return LEFT + (self.end - LEFT) * at / len(self.euros)

    def y(self, euros: float) -> float:
        return TOP + (self.height - BOTTOM - TOP) * (self.high - euros) / (self.high - self.low)

    def hours_axis(self) -> str:
        floor, labels = self.height - BOTTOM, hour_labels(self.names)
        wide = max(map(len, labels)) * 6.5 + 6
        step = max(1, math.ceil(wide * len(labels) / (self.end - LEFT)))
        step = next((round_step for round_step in (1, 2, 3, 4, 6, 12, 24) if round_step >= step), step)
        places = range(0, len(labels), step)
        ticks = "".join(f"M{short_place(self.x(at + 0.5))} {floor}v4" for at in places)
        shown = (element("text", text(labels[at]), x=self.x(at + 0.5), y=floor + 15) for at in places)
        body = element("path", "", "grid", d=ticks) + element("g", "".join(shown), text_anchor="middle")
        return body + element("path", "", "axis", d=f"M{LEFT} {floor}H{short_place(self.end)}")

    def line(self, zone: int) -> str:
        path, apart = "", True
        for at, row in enumerate(self.euros):
            if row is None:
                apart = True
                continue
            y = short_place(self.y(row[zone]))
            path += (f"M{short_place(self.x(at))} {y}" if apart else f"V{y}") + f"H{short_place(self.x(at + 1))}"
            apart = False
        return element("path", "", f"through dash-{zone % DASHES}", d=path)

    def labels(self) -> str:
        last = next(row for row in reversed(self.euros) if row)
        wanted = [self.y(price) for price in last]
        places, body = spread_labels(wanted, TOP, self.height - BOTTOM), ""
        for zone, (price_y, y) in enumerate(zip(wanted, places)):
            leader = f"M{short_place(self.end)} {short_place(price_y)}L{short_place(self.end + 13)} {short_place(y)}"
            body += element("path", "", "leader", d=leader)
            body += element("text", str(zone), "zone", x=self.end + 16, y=y + 3.5)
        return body

    def drawing(self) -> str:
        body = self.hours_axis() + price_axis(self.low, self.high, self.y, LEFT, self.end)
        body += "".join(self.line(zone) for zone in range(self.zones)) + self.labels()
        area = f" of {self.area}" if self.area else ""
        words = f"Prices{area} through {amounts.counted(len(self.euros), 'hour')}: "
        words += f"{amounts.counted(self.zones, 'zone')}, from {self.least:,.2f} to {self.greatest:,.2f} euros per MWh"
        return drawn("chart", words, body, CHART_WIDTH, self.height)
