"""Turns a solver's dump (S-5) into readable text and back, and says what each of its values becomes. Whatever a case
and a dump are, building what is shown gives back their bytes. What a value becomes is read from the proposal that the
library writes. Why the library refuses a value is computed here; dump_command.py compares that with the library's
answer.
"""

from __future__ import annotations

import math
import re
import struct
from dataclasses import dataclass
from typing import Iterator, Mapping

from . import hour
from .hour import short

TEXT_HELP = """\
The text of a solver's dump has the lines of its case, as above, and then:

  dump share S system P                    opens the dump; LTA share, 1 is all; euros per MWh
  accepted A                               share accepted of an order, 1 is all, one per order
  flow F                                   flow in MW, one per link
  shadow S                                 shadow price in euros per MWh, one per branch

A value is a binary64: a decimal as 0.875 or -1e-300, rounded to the nearest; a hexadecimal one as 0x1.cp-1; inf, -inf
or nan; or any pattern as bits: and sixteen hex digits. cut, append and byte take dump instead of proposal. For a dump
of no bytes, write append dump with nothing after it.

A stored dump, dumps/NAME.txt, opens with what it protects. Its comments say what the answer must be by the request:

  # expect N I L                           number, index and length, with an output of 2572 bytes
  # expect 0 0 L judged V                  the same for a dump that is written, and the judgement's number on it
  # becomes share S system P volumes V .. flows F .. shadows S ..    the proposal's numbers, if something is written

tests/stored_dumps compares both judges with each of these.
"""

UNITS = """\
# Values of the dump are shares of 1, MW and euros per MWh.
# After "becomes" stands what the proposal has, in the units above.
"""

# Bytes of the output that the stored dumps are run with: one less than the largest proposal has.
RUN_ROOM = 2572

VALUE_BYTES = 8
OPENING = ("share", "system")
# Values in file order past the two of the opening, each with the header field that counts it and the record it is of.
KINDS = (("accepted", "orders", "order"), ("flow", "links", "link"), ("shadow", "branches", "branch"))
NAMES = {
    "share": "LTA share",
    "system": "system price",
    "accepted": "share of order {}",
    "flow": "flow of link {}",
    "shadow": "shadow price of branch {}",
}

DECIMAL = re.compile(r"-?[0-9]+(\.[0-9]+)?([eE][-+]?[0-9]+)?")
HEXADECIMAL = re.compile(r"-?0[xX][0-9a-fA-F]+(\.[0-9a-fA-F]+)?[pP][-+]?[0-9]+")
PATTERN = re.compile(r"bits:([0-9a-fA-F]{16})")
NAN = 0x7FF8000000000000
WORDS = {"inf": 0x7FF0000000000000, "-inf": 0xFFF0000000000000, "nan": NAN}

EXPECTATION = re.compile(r"#\s*(expect|becomes)\b(.*)")
ANSWER = re.compile(r" ([0-9]+) ([0-9]+) ([0-9]+)(?: judged ([0-9]+))?")
BECOMES = re.compile(
    r" share ([0-9]+) system (-?[0-9]+)(?: volumes((?: [0-9]+)+))?(?: flows((?: [0-9]+)+))?(?: shadows((?: [0-9]+)+))?"
)


# Values and words.


def value_of(bits: int) -> float:
    return float(struct.unpack("<d", struct.pack("<Q", bits))[0])


def bits_of(value: float) -> int:
    return int(struct.unpack("<Q", struct.pack("<d", value))[0])


def word_of(bits: int) -> str:
    """A value as the shortest word that gives it back."""
    value = value_of(bits)
    if math.isnan(value):
        return "nan" if bits == NAN else f"bits:{bits:016x}"
    return repr(value)


def bits_of_word(word: str, name: str) -> int:
    if word in WORDS:
        return WORDS[word]
    pattern = PATTERN.fullmatch(word)
    if pattern:
        return int(pattern.group(1), 16)
    try:
        if DECIMAL.fullmatch(word):
            value = float(word)
        elif HEXADECIMAL.fullmatch(word):
            value = float.fromhex(word)
        else:
            raise ValueError(f"{name} {short(word)!r} is not a decimal, inf, -inf, nan, nor bits: and 16 hex digits")
    except OverflowError:
        value = math.inf
    if math.isinf(value):
        raise ValueError(f"{name} {short(word)} is past the largest binary64; inf says infinite")
    return bits_of(value)


# Text to bytes.


class Dump(hour.Hour):
    """A case and a dump for it as their text says them, taken line by line."""

    FILES = ("case", "dump")

    def __init__(self, folder: hour.Folder) -> None:
        super().__init__(folder)
        self.opening: list[int] | None = None
        self.values: dict[str, list[int]] = {kind: [] for kind, _, _ in KINDS}

    def take(self, line: int, words: list[str]) -> None:
        keyword, *rest = words
        if keyword == "dump":
            self.take_opening(rest)
        elif keyword in self.values:
            self.take_value(keyword, rest)
        elif keyword in ("proposal", "volume", "families", "parent"):
            raise ValueError(f"{keyword} in the text of a dump")
        else:
            super().take(line, words)

    def take_opening(self, words: list[str]) -> None:
        if self.opening is not None:
            raise ValueError("a second dump line")
        if words[::2] != list(OPENING) or len(words) != 2 * len(OPENING):
            raise ValueError("dump takes share and a value, system and a value")
        self.opening = [bits_of_word(word, name) for name, word in zip(OPENING, words[1::2])]

    def take_value(self, kind: str, words: list[str]) -> None:
        if self.opening is None:
            raise ValueError(f"{kind} before the dump line")
        if len(words) != 1:
            raise ValueError(f"{kind} takes 1 value, not {len(words)}")
        self.values[kind].append(bits_of_word(words[0], kind))

    def file_bytes(self, file: str) -> bytearray:
        if file != "dump":
            return super().file_bytes(file)
        values = (self.opening or []) + [bits for kind, _, _ in KINDS for bits in self.values[kind]]
        return bytearray(b"".join(struct.pack("<Q", bits) for bits in values))


def is_text(text: str) -> bool:
    """Whether a text is a dump's: it has a dump line, or one that changes the dump's bytes."""
    lines = (line.split("#", 1)[0].split() for line in text.split("\n"))
    return any(words[:1] == ["dump"] or (words[:1] and words[1:2] == ["dump"]) for words in lines)


def build(text: str, folder: hour.Folder = "") -> tuple[bytes, bytes]:
    """The case and the dump of a text. The files that it names count from the folder."""
    case, dump = hour.built(text, folder, Dump)
    return case, dump


# What a stored dump expects.


@dataclass(frozen=True)
class Expected:
    """Number, index, length, the judgement's number and the numbers written; the last two may be None."""

    number: int
    index: int
    length: int
    judged: int | None
    becomes: tuple[int, ...] | None

    @property
    def line(self) -> str:
        """The line that crates/prog_records prints."""
        judged = "" if self.judged is None else f" judged {self.judged}"
        return f"{self.number} {self.index} {self.length}{judged}"


def expected(text: str) -> Expected:
    found = hour.expectations(text, EXPECTATION, lambda name, _: ANSWER if name == "expect" else BECOMES)
    number, index, length = map(int, found["expect"][:3])
    judged = None if found["expect"][3] is None else int(found["expect"][3])
    if (judged is not None) != (number == 0) or ("becomes" in found and number):
        raise ValueError("judged stands where the number is 0, and nowhere else, and becomes nowhere else either")
    becomes = None
    if "becomes" in found:
        becomes = tuple(int(word) for words in found["becomes"] for word in (words or "").split())
    return Expected(number, index, length, judged, becomes)


# What becomes of each value.


@dataclass(frozen=True)
class Reading:
    """A value of a dump: its place, what it is, its bits, what it becomes in the library's proposal, or the number and
    the words of its fault.
    """

    place: int
    kind: str
    index: int | None
    bits: int
    becomes: int | None
    number: int = 0
    fault: str = ""

    @property
    def name(self) -> str:
        return NAMES[self.kind].format(self.index)

    @property
    def words(self) -> str:
        return f"{self.number}, value {self.place}, {self.name}: {self.fault}"


# What flows and prices are multiplied by, the least and the greatest that is written, and the measure. A share from 0
# to 1 gives nothing that is out of range.
FACTORS = {
    "system": (100, -(2**31), 2**31 - 1, "cents"),
    "flow": (10, 0, 2**32 - 1, "tenths"),
    "shadow": (100, 0, 1_000_000, "cents"),
}


def nearest(product: float) -> int:
    """The whole number nearest to a float, halves away from zero."""
    whole = int(abs(product))
    whole += abs(product) - whole >= 0.5
    return -whole if product < 0 else whole


def fault_of(kind: str, bits: int) -> tuple[int, str]:
    """The number and the words of what is wrong with a value; 0 and none where nothing is."""
    value, word = value_of(bits), word_of(bits)
    if not math.isfinite(value):
        return 58, f"{word} is not finite"
    if kind != "system" and value < 0:
        return 59, f"{word} is negative"
    if kind in ("share", "accepted"):
        return (59, f"{word} is over 1") if value > 1 else (0, "")
    factor, least, greatest, measure = FACTORS[kind]
    product = value * factor
    if math.isinf(product):
        return 59, f"{word} times {factor} is infinite"
    number = int(product) if kind == "flow" else nearest(product)
    if least <= number <= greatest:
        return 0, ""
    side, limit = ("over", greatest) if number > greatest else ("under", least)
    shown = f"{number:,}" if abs(number) < 10**18 else f"{product!r}"
    return 59, f"{word} is {shown} {measure}, {side} {limit:,}"


def proposal_numbers(proposal: bytes | None) -> list[int]:
    """The numbers of a proposal in the order of a dump's values, none without one."""
    if proposal is None:
        return []
    header = hour.header_values("proposal", proposal)
    rest = struct.iter_unpack("<I", proposal[hour.header_layout("proposal").size :])
    return [header["share"], header["system"], *(number for (number,) in rest)]


def readings(case: bytes, dump: bytes, proposal: bytes | None = None) -> list[Reading]:
    """Every whole value of a dump that the case's header counts, in file order, with what it becomes."""
    counts = hour.case_counts(case)
    named: list[tuple[str, int | None]] = [(kind, None) for kind in OPENING]
    named += [(kind, index) for kind, name, _ in KINDS for index in range(counts.get(name, 0))]
    becomes = dict(enumerate(proposal_numbers(proposal)))
    found = []
    for place, ((kind, index), (bits,)) in enumerate(zip(named, struct.iter_unpack("<Q", whole_values(dump)))):
        found.append(Reading(place, kind, index, bits, becomes.get(place), *fault_of(kind, bits)))
    return found


def whole_values(dump: bytes) -> bytes:
    return dump[: len(dump) - len(dump) % VALUE_BYTES]


def demanded_length(counts: Mapping[str, int]) -> int:
    return VALUE_BYTES * (len(OPENING) + sum(counts[name] for _, name, _ in KINDS))


# Bytes to text.


def outcome(reading: Reading, known: bool, before: str) -> str:
    """What a value becomes, or why not, with what stands before it; nothing is known if the case is refused."""
    if not known or (reading.becomes is None and not reading.number):
        return ""
    fault = f"is refused by {reading.number}: {reading.fault}"
    return before + (fault if reading.number else f"becomes {reading.becomes}")


def show_dump(case: bytes, dump: bytes, proposal: bytes | None, known: bool) -> Iterator[str]:
    """The lines of a dump, as far as the case's header counts its values."""
    counts = hour.case_counts(case)
    rows = hour.whole_records("case", case, counts)[0]
    shown = readings(case, dump, proposal)
    if len(shown) < len(OPENING):
        yield f"# The dump ends after {len(dump)} bytes, before the end of its second value."
        yield from hour.show_hex("dump", dump) if dump else ["append dump"]
        return
    opening = " ".join(f"{one.kind} {word_of(one.bits)}" for one in shown[:2])
    notes = "".join(f", value {one.place}{outcome(one, known, ' ')}" for one in shown[:2])
    yield f"dump {opening}  # at 0 8{notes}"
    for kind, _, owner in KINDS:
        own = [one for one in shown if one.kind == kind]
        width = max((len(word_of(one.bits)) for one in own), default=0)
        for one in own:
            note = f"at {VALUE_BYTES * one.place}, value {one.place}, {owner} {one.index}"
            if one.index is not None and one.index < len(rows[owner]):
                words = hour.show_row(owner, rows[owner][one.index])
                note += f": RAM {words[0]}" if owner == "branch" else f": {' '.join(words)}"
            yield f"{kind} {word_of(one.bits).rjust(width)}  # {note}{outcome(one, known, '; ')}"
    rest = dump[VALUE_BYTES * len(shown) :]
    if counts and len(dump) < demanded_length(counts):
        yield f"# The dump ends before its last value; bytes left: {len(rest)}."
    elif rest:
        yield f"# The dump goes on past its last value; bytes left: {len(rest)}."
    yield from hour.show_hex("dump", rest)


def show(case: bytes, dump: bytes, proposal: bytes | None = None, remark: str = "", known: bool = True) -> str:
    """The text of a case and a dump, whatever their bytes, with what each value becomes in the library's proposal, if
    there is one; remark is a line for the reader.
    """
    lines = list(show_dump(case, dump, proposal, known))
    comment = f"# {remark}\n" if remark else ""
    return hour.show(case) + "\n" + UNITS + comment + "".join(f"{line}\n" for line in lines)
