"""The proved library, called from Python: which shared object is loaded, and what its entries answer.
The one place from which a verdict, a total or a yes comes.
"""

from __future__ import annotations

import contextlib
import ctypes
import functools
import os
import pathlib
import sys
import tempfile
from collections.abc import Callable, Iterable
from dataclasses import dataclass
from typing import Any, Union, cast

from . import hour, numbers, origin, rules
from .amounts import GapPart, Grains, Microcents
from .stderr_log import write_to_both

REPORTED = hour.REPORTED

# What holds bytes, and pairs of zones, which may be bytes already.
Buffer = Union[bytes, bytearray, memoryview]
Pairs = Union[Buffer, Iterable["tuple[int, int]"]]


class BuildError(Exception):
    """The library or its shared object cannot be had; the message is one line."""


@dataclass(frozen=True)
class Judgement:
    """What lta_judge or lta_judge_families answers. Totals are in microcents and prices in grains; without a report
    they are None and (). Each amount has euros().
    """

    number: int
    index: int
    welfare: Microcents | None = None
    bound: Microcents | None = None
    gap: Microcents | None = None
    rent: Microcents | None = None
    owed: Microcents | None = None
    prices: tuple[Grains, ...] = ()

    @property
    def accepted(self) -> bool:
        return self.number == 0

    @property
    def verdict(self) -> tuple[int, int]:
        return self.number, self.index

    @property
    def text(self) -> str:
        """What the number means, in words."""
        return numbers.text(self.number)

    @property
    def totals(self) -> dict[str, Microcents]:
        """The totals by name; empty without a report."""
        return {name: getattr(self, name) for name in hour.TOTALS} if self.number in REPORTED else {}


@dataclass(frozen=True)
class Carried:
    """What lta_intuitive and lta_hour_intuitive answer, with the total in tenths. In a refusal it and the yes are
    None.
    """

    number: int
    index: int
    intuitive: bool | None = None
    total: int | None = None

    @property
    def answered(self) -> bool:
        return self.number == 0

    @property
    def text(self) -> str:
        """What the number means, in words."""
        return numbers.text(self.number, "answered")


@dataclass(frozen=True)
class Dumped:
    """What lta_dump_proposal answers, and the proposal that it wrote; in a refusal that is None."""

    number: int
    index: int
    proposal: bytes | None = None

    @property
    def written(self) -> bool:
        return self.number == 0

    @property
    def text(self) -> str:
        """What the number means, in words."""
        return numbers.text(self.number, "written")


@dataclass(frozen=True)
class SheetBranches:
    """What lta_sheet_branches answers, and the branches as a case has them; in a refusal they are None."""

    number: int
    index: int
    branches: bytes | None = None


@dataclass(frozen=True)
class Columned:
    """What lta_case_columned or lta_case_restored answers, and the file that it wrote; in a refusal that is None."""

    number: int
    index: int
    file: bytes | None = None

    @property
    def written(self) -> bool:
        return self.number == 0

    @property
    def text(self) -> str:
        """What the number means, in words."""
        return numbers.text(self.number, "written")


@dataclass(frozen=True)
class Shortfalls:
    """What lta_shortfalls answers: by how much each order, branch and link falls short, in file order and in whole
    hundred-thousandths of a microcent. In a refusal all three are None.
    """

    number: int
    index: int
    orders: tuple[GapPart, ...] | None = None
    branches: tuple[GapPart, ...] | None = None
    links: tuple[GapPart, ...] | None = None

    @property
    def answered(self) -> bool:
        return self.number == 0

    @property
    def text(self) -> str:
        """What the number means, in words."""
        return numbers.text(self.number, "answered")


# Which library.

ARCHIVE, SHARED = "libhost.a", "liblta_judgement.so"


@dataclass(frozen=True)
class Loaded:
    """The shared object that answers: its hash, and whether it is the one that belongs to this command."""

    sha256: str
    belongs: bool


def say(line: str) -> None:
    """Says what takes minutes, or whose the library is: to the process's standard error too where a test runner holds
    back what is written to sys.stderr.
    """
    write_to_both(f"lta: {line}\n")


def of_repository(given: str | None, ends: contextlib.ExitStack) -> tuple[pathlib.Path, bool]:
    """The shared object of the repository: its own, or one linked from a library elsewhere. The latter is removed
    afterwards, so that it answers no later call.
    """
    tools = str(origin.REPOSITORY / "tools")
    if tools not in sys.path:
        # An editable installation puts this package alone on the path.
        sys.path.append(tools)
    import built

    try:
        if not given:
            return built.have_shared(say), True
        archive, shared = pathlib.Path(given) / ARCHIVE, pathlib.Path(given) / SHARED
        current = built.is_library_current()
        if current and archive.is_file() and origin.sha256_of(archive) == origin.sha256_of(built.LIBRARY.path):
            return built.have_shared(say), True
        if archive.is_file():
            return built.link(archive, ends.enter_context(tempfile.TemporaryDirectory())), False
        if shared.is_file():
            return shared, current and origin.sha256_of(shared) == origin.sha256_of(built.have_shared(say))
        raise BuildError(f"{archive}: there is no library; make writes target/staticlib/{ARCHIVE}")
    except built.BuildError as fault:
        raise BuildError(str(fault)) from None


def of_release(given: str | None) -> tuple[pathlib.Path, bool]:
    """The shared object of a release: its own, or one from elsewhere."""
    shared = pathlib.Path(given) / SHARED if given else origin.release_library()
    if not shared.is_file():
        raise BuildError(f"{shared}: there is no library")
    return shared, origin.sha256_of(shared) == origin.release()["files"].get(origin.release()["library"])


def load() -> tuple[ctypes.CDLL, Loaded]:
    """Loads the shared object. One that does not belong to this command is named on standard error."""
    given, shared = os.environ.get("LTA_ARCHIVE_DIR"), None
    with contextlib.ExitStack() as ends:
        try:
            shared, belongs = of_repository(given, ends) if origin.IN_REPOSITORY else of_release(given)
            loaded, library = Loaded(origin.sha256_of(shared), belongs), ctypes.CDLL(str(shared))
        except origin.OriginError as fault:
            raise BuildError(str(fault)) from None
        except OSError as fault:
            raise BuildError(f"{shared or fault.filename}: it cannot be loaded: {fault.strerror or fault}") from None
    if not belongs:
        say(f"{given or shared}: this library does not belong to this command, and nothing is proved of its answers")
    return library, loaded


# Calling.


class CarriedStruct(ctypes.Structure):
    """struct lta_carried."""

    _fields_ = [
        ("number", ctypes.c_uint32),
        ("index", ctypes.c_uint32),
        ("intuitive", ctypes.c_uint32),
        ("total", ctypes.c_int64),
    ]


class WrittenStruct(ctypes.Structure):
    """struct lta_written."""

    _fields_ = [("number", ctypes.c_uint32), ("index", ctypes.c_uint64), ("length", ctypes.c_uint64)]


_BYTES = [ctypes.c_char_p, ctypes.c_size_t]
_AMOUNTS = [ctypes.POINTER(ctypes.c_int64), ctypes.c_size_t]
# What each entry gives, and takes.
ENTRIES = {
    "lta_judge": (ctypes.c_uint64, _BYTES * 3),
    "lta_judge_families": (ctypes.c_uint64, _BYTES * 4),
    "lta_intuitive": (CarriedStruct, _AMOUNTS * 2 + _BYTES + _AMOUNTS),
    "lta_hour_intuitive": (CarriedStruct, _BYTES * 3 + _AMOUNTS),
    "lta_dump_proposal": (WrittenStruct, _BYTES * 3),
    "lta_sheet_branches": (WrittenStruct, [*_BYTES, ctypes.c_size_t, *_BYTES]),
    "lta_case_columned": (WrittenStruct, _BYTES * 2),
    "lta_case_restored": (WrittenStruct, _BYTES * 2),
    "lta_shortfalls": (WrittenStruct, _BYTES * 2 + _AMOUNTS),
}


@functools.lru_cache(maxsize=None)
def library_loaded() -> tuple[ctypes.CDLL, Loaded]:
    """The library and what it is. It is loaded once."""
    return load()


@functools.lru_cache(maxsize=None)
def entry(name: str = "lta_judge") -> Callable[..., Any]:
    """An entry of the library."""
    library, _ = library_loaded()
    try:
        found = getattr(library, name)
    except AttributeError as fault:
        raise BuildError(f"{library._name}: it cannot be loaded: {fault}") from None
    found.restype, found.argtypes = ENTRIES[name]
    return cast("Callable[..., Any]", found)


def identity() -> dict[str, Any]:
    """Which build answers, for machines: the version, the library's hash, and whether it belongs to this command."""
    _, loaded = library_loaded()
    return {"version": origin.version(), "library_sha256": loaded.sha256, "library_belongs": loaded.belongs}


def version_text() -> str:
    """What lta --version prints."""
    _, loaded = library_loaded()
    return origin.version_text("lta", "library", loaded.sha256, loaded.belongs)


def bytes_of(data: Buffer) -> bytes:
    """The bytes of what holds bytes. A number would be as many zeros, and a name is not its file."""
    try:
        return bytes(memoryview(data))
    except TypeError:
        raise TypeError(f"bytes are judged, not a path or a number: {type(data).__name__}") from None


def judge(
    case: Buffer, proposal: Buffer, families: Buffer | None = None, room: int = rules.REPORT_ROOM
) -> Judgement:
    """Has a case and a proposal, as bytes, judged by the library, with a family list if there is one, and with a report
    buffer of the room's bytes. An empty list is a list, and refused; None is none.
    """
    files = [bytes_of(case), bytes_of(proposal)] + ([] if families is None else [bytes_of(families)])
    if room < 0:
        raise ValueError(f"the report's room is {room} bytes")
    report = ctypes.create_string_buffer(max(room, 1))
    call = entry() if families is None else entry("lta_judge_families")
    verdict = call(*(part for file in files for part in (file, len(file))), report, room)
    number, index = verdict % 256, verdict // 256
    if number not in REPORTED:
        return Judgement(number, index)
    data = report.raw
    amounts = [int.from_bytes(data[at : at + 8], "little", signed=True) for at in range(8, 48 + 8 * data[6], 8)]
    welfare, bound, gap, rent, owed = map(Microcents, amounts[: len(hour.TOTALS)])
    prices = tuple(map(Grains, amounts[len(hour.TOTALS) :]))
    return Judgement(number, index, welfare, bound, gap, rent, owed, prices)


def judge_joined(joined: Buffer, families: Buffer | None = None) -> Judgement:
    """The same for a joined file, the case with the proposal directly after it, cut as the desk cuts it."""
    return judge(*rules.cut(bytes_of(joined)), families)


def amounts_of(numbers: Iterable[int], name: str) -> ctypes.Array[ctypes.c_int64]:
    """Whole numbers as an array of signed 64 bits; one that has no room there is refused and not wrapped."""
    numbers = list(numbers)
    for number in numbers:
        if not isinstance(number, int) or not -(2**63) <= number < 2**63:
            raise ValueError(f"{name} {number!r} is no signed number of 64 bits")
    return (ctypes.c_int64 * len(numbers))(*numbers)


def pair_bytes(pairs: Pairs) -> bytes:
    """Ordered pairs of zones, two bytes each; bytes stay as they are."""
    if isinstance(pairs, (bytes, bytearray, memoryview)):
        return bytes(pairs)
    made = bytearray()
    for pair in pairs:
        first, second = pair
        for zone in (first, second):
            if not isinstance(zone, int) or not 0 <= zone <= 255:
                raise ValueError(f"zone {zone!r} of a pair is not from 0 to 255")
        made += bytes((first, second))
    return bytes(made)


def answer_of(carried: CarriedStruct) -> Carried:
    if carried.number:
        return Carried(carried.number, carried.index)
    return Carried(0, carried.index, carried.intuitive == 1, carried.total)


def new_scratch() -> ctypes.Array[ctypes.c_int64]:
    """Room for the wide entries, which the command and lta.carried ask; the small ones answer the same."""
    return (ctypes.c_int64 * rules.INTUITIVE_SCRATCH)()


def carried(net_exports: Iterable[int], zone_prices: Iterable[int], pairs: Pairs) -> Carried:
    """Has the library answer whether net positions, in tenths and export positive, are intuitive at zone prices in
    grains along these pairs.
    """
    net, prices = amounts_of(net_exports, "net position"), amounts_of(zone_prices, "zone price")
    pairs, scratch = pair_bytes(pairs), new_scratch()
    call = entry("lta_intuitive")
    return answer_of(call(net, len(net), prices, len(prices), pairs, len(pairs), scratch, len(scratch)))


def intuitive(case: Buffer, proposal: Buffer, pairs: Pairs | None = None) -> Carried:
    """Has the library answer whether an hour, as two files' bytes, is intuitive along these pairs; without them along
    the case's links.
    """
    case, proposal = bytes_of(case), bytes_of(proposal)
    pairs, scratch = pair_bytes(hour.link_pairs(case) if pairs is None else pairs), new_scratch()
    call = entry("lta_hour_intuitive")
    return answer_of(call(case, len(case), proposal, len(proposal), pairs, len(pairs), scratch, len(scratch)))


def dump_proposal(case: Buffer, dump: Buffer, room: int = rules.PROPOSAL_ROOM) -> Dumped:
    """Has the library write the proposal that a solver's dump gives for a case, both as bytes, with an output of the
    room's bytes.
    """
    case, dump = bytes_of(case), bytes_of(dump)
    if room < 0:
        raise ValueError(f"the output's room is {room} bytes")
    out = ctypes.create_string_buffer(max(room, 1))
    written = entry("lta_dump_proposal")(case, len(case), dump, len(dump), out, room)
    if written.number:
        return Dumped(written.number, written.index)
    return Dumped(0, written.index, out.raw[: written.length])


def sheet_branches(sheet: Buffer, zones: int) -> SheetBranches:
    """Has the library make the branches of a case of a published margin sheet's bytes."""
    data, out = bytes_of(sheet), ctypes.create_string_buffer(rules.SHEET_ROOM)
    written = entry("lta_sheet_branches")(data, len(data), zones, out, rules.SHEET_ROOM)
    if written.number:
        return SheetBranches(written.number, written.index)
    return SheetBranches(0, written.index, out.raw[: written.length])


def rearranged(name: str, data: Buffer, room: int | None) -> Columned:
    data = bytes_of(data)
    room = len(data) if room is None else room
    if room < 0:
        raise ValueError(f"the output's room is {room} bytes")
    out = ctypes.create_string_buffer(max(room, 1))
    written = entry(name)(data, len(data), out, room)
    if written.number:
        return Columned(written.number, written.index)
    return Columned(0, written.index, out.raw[: written.length])


def case_columned(case: Buffer, room: int | None = None) -> Columned:
    """Has the library write a case in columns, as bytes, with an output of the room's bytes or of the case's length."""
    return rearranged("lta_case_columned", case, room)


def case_restored(file: Buffer, room: int | None = None) -> Columned:
    """The way back, of a columned file's bytes."""
    return rearranged("lta_case_restored", file, room)


def shortfalls(case: Buffer, proposal: Buffer, room: int = rules.SHORTFALL_ROOM) -> Shortfalls:
    """Has the library write by how much each order, branch and link of an accepted hour, as two files' bytes, falls
    short, with an output of the room's numbers.
    """
    case, proposal = bytes_of(case), bytes_of(proposal)
    if room < 0:
        raise ValueError(f"the output's room is {room} numbers")
    out = (ctypes.c_int64 * max(room, 1))()
    written = entry("lta_shortfalls")(case, len(case), proposal, len(proposal), out, room)
    if written.number:
        return Shortfalls(written.number, written.index)
    # The numbers come in pairs: whole microcents, then hundred-thousandths of one.
    amounts = tuple(GapPart(rules.WHOLE * out[at] + out[at + 1]) for at in range(0, written.length, 2))
    counts = hour.case_counts(case)
    orders, branches = counts["orders"], counts["orders"] + counts["branches"]
    return Shortfalls(0, written.index, amounts[:orders], amounts[orders:branches], amounts[branches:])
