"""lta explain: the verdict in words with the field at fault, and of an hour that could be cleared what is in it: zones,
branches, links, and the gap's parts. The verdict, the totals and, of an accepted hour, the shortfalls are the
library's; all else is computed next to it.
"""

from __future__ import annotations

from collections.abc import Iterable, Iterator, Mapping, Sequence

from . import amounts, causes, further, gap, hour, library, rules

NOT_PROVED = "Verdict, totals and prices are the library's. All else is computed next to it and is not proved."
NOT_PROVED_ACCEPTED = (
    "Verdict, totals, prices and shortfalls are the library's. All else is computed next to it and is not proved."
)
HEX_ROW = 16


def columns(head: Sequence[str], rows: Iterable[Sequence[str]], left: int = 1) -> Iterator[str]:
    """A table as lines; the first columns, as many as left says, begin at their left."""
    table = [head, *rows]
    widths = [max(len(row[at]) for row in table) for at in range(len(head))]
    for row in table:
        cells = [
            cell.ljust(width) if at < left else cell.rjust(width) for at, (cell, width) in enumerate(zip(row, widths))
        ]
        yield ("  " + "  ".join(cells)).rstrip()


def hex_rows(data: bytes, field: causes.Field) -> Iterator[tuple[int, list[tuple[int, bool]]]]:
    """The bytes around a field, sixteen to a row: where the row begins, and of each byte whether it is the field's."""
    start, end = field.offset, field.offset + field.size
    first = max(0, start // HEX_ROW - 1) * HEX_ROW
    # A long field, such as all volumes together, is shown by its first rows only.
    last = min(len(data), (min(end - 1, start + 3 * HEX_ROW) // HEX_ROW + 2) * HEX_ROW)
    for row in range(first, last, HEX_ROW):
        yield row, [(data[at], start <= at < end) for at in range(row, min(row + HEX_ROW, len(data)))]


def hex_lines(data: bytes, field: causes.Field) -> Iterator[str]:
    """The same as lines, the field's own bytes in brackets."""
    for row, row_bytes in hex_rows(data, field):
        line, inside = f"    {row:>6} 0x{row:04x} ", False
        for byte, own in row_bytes:
            line += ("[" if own and not inside else "]" if inside and not own else " ") + f"{byte:02x}"
            inside = own
        yield line + "]" * inside


def field_lines(field: causes.Field) -> Iterator[str]:
    yield f"  field   {field.name}"
    yield f"  value   {field.value}"
    if field.limit:
        yield f"  limit   {field.limit}"
    yield f"  place   {field.place()}"


def joined_words(case: bytes) -> str:
    """Where to look for the proposal's offsets in a joined file."""
    return f"the proposal begins at offset {len(case)} (0x{len(case):x}) of the file"


def fault_lines(explanation: causes.Explanation, files: Mapping[str, bytes | None], joined: bool) -> Iterator[str]:
    """The field at fault, the bytes around it, and the fields that it is held to."""
    if not explanation.fields:
        return
    first, *others = explanation.fields
    yield ""
    yield from field_lines(first)
    if first.size:
        yield from hex_lines(files[first.file] or b"", first)
    for other in others:
        yield f"  with    {other.name}: {other.value}; {other.place()}"
    if joined and any(field.file == "proposal" for field in explanation.fields):
        yield f"  joined  {joined_words(files['case'] or b'')}"


def totals_lines(judgement: library.Judgement, sums: rules.Sums) -> Iterator[str]:
    yield from columns(
        ("total", "euros"), [(name, amounts.microcents(total)) for name, total in judgement.totals.items()]
    )
    if has_contracted(sums):
        yield f"  Owed is by contracted volumes; by capacities it is the bound's link total, {link_total(sums)}."
    if not sums.links:
        yield f"  {no_link_words(sums)}"


def no_link_words(sums: rules.Sums) -> str:
    """Request S-6: what an hour without links is bounded by, and that nothing is promised of its rent."""
    total = amounts.microcents(sums.branch_total)
    return f"No link: the bound has the branch total alone, {total} euros, and the coverage rule says nothing here."


def has_contracted(sums: rules.Sums) -> bool:
    """Whether the links say what is contracted, as those of a case of version 2 do."""
    return sums.version == hour.CONTRACTED_VERSION and bool(sums.links)


def link_total_name(sums: rules.Sums) -> str:
    """In version 1, where all is contracted, it is what is owed."""
    return "the link total" if has_contracted(sums) else "owed"


def link_total(sums: rules.Sums) -> str:
    return f"{amounts.microcents(sums.link_total)} euros"


def contracted_of(link: rules.Link) -> str:
    """What is contracted of a link, in MW."""
    return f"{amounts.scaled(link.contracted, 1, 1)} of {amounts.scaled(link.capacity, 1, 1)}"


def zone_lines(sums: rules.Sums) -> Iterator[str]:
    parts = (sums.net, sums.lta, sums.flow_based)
    rows = [
        (f"zone {zone}", amounts.grains(price), *(amounts.scaled(part[zone], 1, 1) for part in parts))
        for zone, price in enumerate(sums.prices)
    ]
    yield from columns(("zone", "price, euros/MWh", "net position, MW", "LTA part", "flow-based part"), rows)


def standing(amount: int, room: int, priced: bool, step: int = 1) -> str:
    """How an amount compares with its room: over it, full if not one more step fits, or free; and whether priced."""
    if amount > room:
        return "BROKEN"
    if amount + step > room:
        return "binding" if priced else "full"
    return "priced, not full" if priced else ""


def use_of(amount: int, room: int) -> str:
    """An amount in per cent of its room; 100 only where it is just that."""
    if room <= 0:
        return ""
    shown = f"{100 * amount / room:,.1f} %"
    if shown == "100.0 %" and amount != room:
        shown = "> 100 %" if amount > room else "< 100 %"
    return shown


def branch_lines(sums: rules.Sums) -> Iterator[str]:
    rows = [
        (
            f"branch {index}",
            amounts.scaled(load, 6, 1),
            amounts.scaled(room, 6, 1),
            use_of(load, room),
            amounts.cents(branch.shadow),
            standing(load, room, branch.shadow > 0),
        )
        for index, (branch, load, room) in enumerate(zip(sums.branches, sums.loads, sums.branch_rooms))
    ]
    yield from columns(("branch", "load, MW", "room, MW", "use", "shadow price, euros/MWh", ""), rows)


def link_lines(sums: rules.Sums) -> Iterator[str]:
    contracted = has_contracted(sums)
    rows = [
        (
            f"link {index}",
            f"{link.source} to {link.sink}",
            *([contracted_of(link)] if contracted else []),
            amounts.scaled(use, 6, 1),
            amounts.scaled(room, 6, 1),
            use_of(use, room),
            amounts.grains(spread),
            standing(use, room, spread > 0, rules.WHOLE),
        )
        for index, (link, use, room, spread) in enumerate(zip(sums.links, sums.uses, sums.link_rooms, sums.spreads))
    ]
    head = ("link", "zones", *["contracted, MW"] * contracted, "use, MW", "room, MW", "use", "spread, euros/MWh", "")
    yield from columns(head, rows, left=2)


def part_name(sums: rules.Sums, kind: str, place: int | None) -> str:
    """A part of the gap, named by what falls short."""
    if place is None:
        return share_part_name(sums, kind)
    if kind == "order":
        order = sums.orders[place]
        side = "buys" if order.buys else "sells"
        accepted = f"{amounts.scaled(order.volume, 1, 1)} of {amounts.mwh(order.quantity)}"
        price = amounts.grains(sums.prices[order.zone])
        return f"order {place}: zone {order.zone} {side} {accepted} at {amounts.cents(order.price)}, price {price}"
    if kind == "branch":
        free = amounts.load_mw(sums.branch_rooms[place] - sums.loads[place])
        return f"branch {place}: {free} free at a shadow price of {amounts.cents(sums.branches[place].shadow)}"
    link, spread = sums.links[place], sums.spreads[place]
    free = amounts.load_mw(sums.link_rooms[place] - sums.uses[place])
    if spread < 0:
        return f"link {place}: {amounts.mw(link.flow)} against a spread of {amounts.grains(spread)}"
    return f"link {place}: {free} free at a spread of {amounts.grains(spread)}"


def share_part_name(sums: rules.Sums, kind: str) -> str:
    """The part of the gap that the LTA share makes: the bound takes the larger of branch total and link total whole,
    and the hour takes each by its share.
    """
    behind = amounts.microcents(abs(sums.branch_total - sums.link_total))
    if kind == "branch total":
        rest = amounts.per_cent(rules.WHOLE - sums.share)
        return f"LTA share: {rest} is flow-based, and the branch total is {behind} below {link_total_name(sums)}"
    share = amounts.per_cent(sums.share)
    return f"LTA share: {share} goes by links, and {link_total_name(sums)} is {behind} below the branch total"


def fraction_of(order: rules.Order) -> str:
    """What is accepted of an order, in per cent, cut to a thousandth."""
    return f"{amounts.scaled(100_000 * order.volume // order.quantity, 3, 1)} %"


def family_rows(sums: rules.Sums, parents: Sequence[int | None]) -> Iterator[tuple[str, ...]]:
    """A row for each order that has a parent: the order, its parent, and the accepted fractions of both."""
    for child, parent in enumerate(parents):
        if parent is not None:
            one, other = sums.orders[child], sums.orders[parent]
            ahead = one.volume * other.quantity > other.volume * one.quantity
            yield f"order {child}", f"order {parent}", fraction_of(one), fraction_of(other), "AHEAD" if ahead else ""


def family_lines(sums: rules.Sums, parents: Sequence[int | None]) -> Iterator[str]:
    rows = list(family_rows(sums, parents))
    if not rows:
        yield "  No order has a parent."
    else:
        yield from columns(("order", "parent", "accepted", "of its parent", ""), rows, left=2)


def titled(title: str, lines: Iterable[str]) -> Iterator[str]:
    yield ""
    yield title
    yield from lines


def part_rows(sums: rules.Sums, parts: gap.Parts) -> list[tuple[str, int]]:
    """The parts that are not zero, the shortfalls largest first: each with its name and amount."""
    return [(part_name(sums, part.kind, part.place), part.amount) for part in parts.nonzero]


def part_lines(sums: rules.Sums, parts: gap.Parts) -> Iterator[str]:
    whole = rules.WHOLE * parts.gap
    rows = [
        (name, amounts.gap_part(amount), f"{100 * amount / whole:.1f} %") for name, amount in part_rows(sums, parts)
    ]
    yield from columns(("what falls short", "euros", "of the gap"), rows)


def gap_title(parts: gap.Parts) -> str:
    """On a refusal by 26 the library gives no shortfalls."""
    whence = "" if parts.from_library else "; computed by lta, since the library gives none for a refused hour"
    return f"Gap: shortfalls, largest first, and what is left{whence}"


def gap_lines(sums: rules.Sums, parts: gap.Parts) -> Iterator[str]:
    if parts.gap:
        return titled(gap_title(parts), part_lines(sums, parts))
    return titled("Gap", ["  0.00: no order, branch or link falls short."])


def hour_lines(
    judgement: library.Judgement,
    sums: rules.Sums,
    parts: gap.Parts | None,
    parents: Sequence[int | None] | None = None,
) -> Iterator[str]:
    if judgement.number in hour.REPORTED:
        yield from titled("Totals", totals_lines(judgement, sums))
    yield from titled(f"Zones, import positive; LTA share {amounts.per_cent(sums.share)}", zone_lines(sums))
    if sums.branches:
        yield from titled("Branches", branch_lines(sums))
    if sums.links:
        yield from titled("Links", link_lines(sums))
    if parents is not None:
        yield from titled("Families", family_lines(sums, parents))
    if parts is not None:
        yield from gap_lines(sums, parts)


def clearable(number: int) -> bool:
    """Whether an hour of this number has volumes, flows and prices that can be looked at."""
    return number == 0 or 21 <= number <= 28


def full_text(
    case: bytes,
    proposal: bytes,
    judgement: library.Judgement,
    explanation: causes.Explanation,
    joined: bool = False,
    families: bytes | None = None,
) -> str:
    """All that lta explain prints, of two files or of a joined one, with a family list if there is one."""
    lines = [explanation.words]
    if not judgement.accepted:
        lines.append(further.also(case, proposal, families, judgement).line)
    lines += fault_lines(explanation, {"case": case, "proposal": proposal, "families": families}, joined)
    if clearable(judgement.number):
        sums = rules.Sums(case, proposal)
        parts = gap.parts(case, proposal, judgement, sums) if judgement.number in hour.REPORTED else None
        parents = None if families is None else hour.parents_of(case, families)
        lines += hour_lines(judgement, sums, parts, parents)
    return "\n".join([*lines, "", NOT_PROVED_ACCEPTED if judgement.accepted else NOT_PROVED]) + "\n"
