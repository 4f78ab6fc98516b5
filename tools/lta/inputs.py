"""The hours that a command line names, and how they are read.

A file is what its ending says, in capitals or not. A case goes with the proposal, or else the dump, of the same name,
and an hour with the family list of the same name. An option says what files with other endings are.
"""

from __future__ import annotations

import contextlib
import fnmatch
import hashlib
import os
import sys
from collections.abc import Callable, Iterable, Iterator, Sequence
from dataclasses import dataclass
from typing import BinaryIO

from . import dump_format, hour, library, reading, rules
from .progress import Progress
from .results import LEFT_OUT, NO_LIST, USED

JOINED, TEXT, CASE, PROPOSAL, DUMP, UNREAD = "joined", "text", "case", "proposal", "dump", "unread"
FAMILIES = "families"
ENDINGS = {
    ".txt": TEXT,
    ".case": CASE,
    ".proposal": PROPOSAL,
    ".families": FAMILIES,
    ".bin": JOINED,
    ".joined": JOINED,
    ".dump": DUMP,
}
# In capitals too, all of them or the first.
KINDS = {
    written: kind
    for ending, kind in ENDINGS.items()
    for written in (ending, ending.upper(), f".{ending[1:].capitalize()}")
}
WRITTEN = {kind: [ending for ending in KINDS if KINDS[ending] == kind] for kind in ENDINGS.values()}
STDIN = "-"


class InputError(Exception):
    """A file or folder that gives no hour: one line that names it and says why."""

    def __init__(self, path: str, why: object) -> None:
        self.path, self.why = path, str(why)
        super().__init__(f"{printable(path) or repr('')}: {why}")


def printable(text: object) -> str:
    """A name on one line and in characters that can be seen, whatever it has."""
    shown = str(text)
    if shown.isprintable():
        return shown
    return "".join(letter if letter.isprintable() else ascii(letter)[1:-1] for letter in shown)


def why_not(fault: BaseException) -> str:
    """What is wrong, of a fault that reading a file met."""
    if isinstance(fault, UnicodeDecodeError):
        return f"not a text in UTF-8: byte {fault.start} is 0x{fault.object[fault.start]:02x}"
    return printable(getattr(fault, "strerror", None) or str(fault))


@contextlib.contextmanager
def opened(path: str) -> Iterator[BinaryIO]:
    """An open file, - being standard input. What goes wrong with it is said of its name."""
    try:
        if path != STDIN:
            with open(path, "rb", buffering=0) as file:
                yield file
        elif sys.stdin is None:
            raise ValueError("it is closed")
        else:
            yield sys.stdin.buffer
    except (OSError, ValueError) as fault:
        raise InputError("standard input" if path == STDIN else path, why_not(fault)) from None


def read(path: str, most: int = reading.MOST_OF_A_TEXT) -> bytes:
    """The bytes of a file, which is refused where it has more."""
    with opened(path) as file:
        return reading.read_up_to(file, most)


# The greatest length of each kind of binary file.
LONGEST = {
    CASE: rules.LONGEST["case"],
    PROPOSAL: rules.LONGEST["proposal"],
    JOINED: rules.LONGEST["case"] + rules.LONGEST["proposal"],
    FAMILIES: rules.LONGEST["families"],
    DUMP: dump_format.demanded_length(rules.LARGEST),
}


def read_binary(path: str, kind: str) -> tuple[bytes, bool]:
    """The bytes of a binary file, and whether it was cut. If it is longer than a text may be, they are only the first,
    one more than a legal file can have. The library refuses these by the header or the length, as it refuses the whole.
    """
    with opened(path) as file:
        return reading.read_or_cut(file, reading.MOST_OF_A_TEXT, LONGEST[kind] + 1)


@dataclass(frozen=True)
class Hashed:
    """A file that was read, by its name, and the SHA-256 of its bytes. One that was cut says so in its name."""

    file: str
    sha256: str
    cut: bool = False


def hashed(path: str, data: bytes) -> Hashed:
    return Hashed("standard input" if path == STDIN else path, hashlib.sha256(data).hexdigest())


def read_hashed(path: str, kind: str) -> tuple[bytes, Hashed]:
    """The bytes of a binary file, and what is known of it."""
    data, cut = read_binary(path, kind)
    made = hashed(path, data)
    return data, Hashed(f"{made.file} (its first {len(data):,} bytes)", made.sha256, cut) if cut else made


@dataclass(frozen=True)
class HourFiles:
    """An hour's two files; if it came joined or as text its joined bytes and what the text expects; its family list if
    it is judged with one; and the files that were read for it.
    """

    case: bytes
    proposal: bytes
    joined: bytes | None = None
    expected: hour.Expected | None = None
    families: bytes | None = None
    inputs: tuple[Hashed, ...] = ()
    list_left_out: bool = False

    @property
    def list_use(self) -> str:
        """What became of the family list."""
        if self.list_left_out:
            return LEFT_OUT
        return NO_LIST if self.families is None else USED


@dataclass(frozen=True)
class Input:
    """Where an hour is read from: the paths, or why it cannot be read.

    families   the path of its family list
    beside     whether the list was found next to the hour, and not named by a word of the command line or in a folder
    leave_out  whether the hour is judged without its list
    """

    name: str
    kind: str
    paths: tuple[str, ...]
    families: str | None = None
    beside: bool = False
    leave_out: bool = False

    def read(self) -> HourFiles:
        if self.kind == UNREAD:
            raise InputError(self.name, self.paths[0])
        if self.kind == TEXT:
            return text_hour(self.name, read(self.name), self.leave_out)
        kinds = {JOINED: (JOINED,), CASE: (CASE, PROPOSAL), DUMP: (CASE, DUMP)}[self.kind]
        read_files = [read_hashed(path, kind) for path, kind in zip(self.paths, kinds)]
        data, inputs = [data for data, _ in read_files], [one for _, one in read_files]
        families = None
        if self.families is not None and not self.leave_out:
            families, one = read_hashed(self.families, FAMILIES)
            inputs.append(one)
        left_out = self.families is not None and self.leave_out
        if self.kind == JOINED:
            return HourFiles(*rules.cut(data[0]), data[0], None, families, tuple(inputs), left_out)
        case, proposal = data
        if self.kind == DUMP:
            proposal = proposal_of_dump(inputs[1].file, case, proposal)
        return HourFiles(case, proposal, None, None, families, tuple(inputs), left_out)


def proposal_of_dump(path: str, case: bytes, dump: bytes) -> bytes:
    """The proposal that the library makes of a dump. A case that it refuses is judged without one: the judgement
    refuses the case first, whatever the proposal is.
    """
    answer = library.dump_proposal(case, dump)
    if answer.number == CASE_REFUSED:
        return b""
    if answer.proposal is None:
        from . import dump_command

        raise InputError(path, f"the dump gives no proposal; {dump_command.ask(case, dump).words}")
    return answer.proposal


CASE_REFUSED = 56


def text_inputs(path: str, data: bytes, taken: hour.Hour) -> tuple[Hashed, ...]:
    """A text, and the sheet that it names."""
    return (hashed(path, data), *(hashed(*read_file) for read_file in taken.files_read.items()))


def text_hour(path: str, data: bytes, leave_out: bool = False) -> HourFiles:
    """The hour of a text, or of the text of a dump. One without any line that expects something expects nothing."""
    try:
        text = hour.decoded(data)
        of_dump = dump_format.is_text(text)
        taken = hour.taken(text, os.path.dirname(path), dump_format.Dump if of_dump else hour.Hour)
        files = taken.files()
        inputs = text_inputs(path, data, taken)
        if of_dump:
            return HourFiles(files[0], proposal_of_dump(path, *files), inputs=inputs)
        case, proposal, families = hour.with_families(files)
        lines = (hour.EXPECTATION.match(line) for line in text.split("\n"))
        other = "expect-apart" if families is None else "expect-without"
        expected = hour.expected(text, other) if any(lines) else None
    except ValueError as fault:
        raise InputError(path, why_not(fault)) from None
    left_out = families is not None and leave_out
    if left_out:
        families = None
        if expected is not None:
            expected = (expected[1], expected[1], expected[2])
    return HourFiles(case, proposal, case + proposal, expected, families, inputs, left_out)


# Names.

NO_ENDING = "its ending does not say what it is; --pairs, --joined or --text does"
LISTLESS = "a family list without its hour"


def kind_of(word: str) -> str | None:
    return JOINED if word == STDIN else KINDS.get(os.path.splitext(word)[1])


def lies_there(path: str) -> bool:
    """Whether there is a file, or a link that leads nowhere: that is said when it is read."""
    return os.path.isfile(path) or (os.path.islink(path) and not os.path.exists(path))


def fellow(path: str, kind: str, is_there: Callable[[str], bool]) -> str | None:
    """The file of a kind that has the same name as a path."""
    if path == STDIN:
        return None
    stem = os.path.splitext(path)[0]
    return next((stem + ending for ending in WRITTEN[kind] if is_there(stem + ending)), None)


def first_fellow(path: str, kinds: Iterable[str], is_there: Callable[[str], bool]) -> str | None:
    """The file of the first of these kinds that is there."""
    return next(filter(None, (fellow(path, kind, is_there) for kind in kinds)), None)


def second_kind(kind: str, other: str | None) -> str:
    """The kind of an hour: a case with a dump is not one with a proposal."""
    return DUMP if other is not None and kind_of(other) == DUMP else kind


def hour_beside(path: str, is_there: Callable[[str], bool]) -> str | None:
    """The case or joined file that has the same name as a path."""
    return first_fellow(path, (CASE, JOINED), is_there)


def lonely(path: str, why: str) -> Input:
    """A file that gives no hour by itself; one that is not there lacks more than its fellow."""
    try:
        os.stat(path)
    except (OSError, ValueError) as fault:
        why = why_not(fault)
    return Input(path, UNREAD, (why,))


def paired(case: str, proposal: str, families: str | None = None) -> Input:
    return Input(case, CASE, (case, proposal), families)


# Gathering.


class Gathering:
    """How the words of a command line are taken.

    way       "pairs", "joined" or "text" where an option says what all files are
    leave_out whether family lists are left out
    ignore    patterns of names in folders that are skipped silently
    fellows   what goes with a case: the first of these that exists
    passed    files of folders that belong to no hour, once the hours are gathered
    """

    def __init__(
        self,
        way: str | None = None,
        leave_out: bool = False,
        ignore: Sequence[str] = (),
        fellows: Sequence[str] = (PROPOSAL, DUMP),
    ) -> None:
        self.way, self.leave_out, self.ignore, self.fellows = way, leave_out, ignore, fellows
        # A dump alone is made into a proposal, and nothing is judged.
        self.judges = PROPOSAL in fellows
        self.passed: list[str] = []
        self.progress = Progress("{:,} files found")
        self.seen = 0

    def hours(self, words: Sequence[str]) -> list[Input]:
        """The hours that the words name, in their order, and of a folder in the order of the names."""
        if words.count(STDIN) > 1:
            raise InputError(STDIN, "standard input is named twice")
        try:
            return list(self.hours_named(words) if self.way is None else self.all_so(words, self.way))
        finally:
            self.progress.end()

    def made(self, path: str, kind: str, other: str | None, families: str | None, named: bool) -> Input:
        """The hour of a file, with what goes with it. A named list needs no word."""
        paths = (path,) if other is None else (path, other)
        return Input(path, kind, paths, families, families is not None and not named, self.leave_out)

    def list_beside(self, path: str, is_there: Callable[[str], bool]) -> str | None:
        return fellow(path, FAMILIES, is_there) if self.judges else None

    def without_fellow(self, path: str) -> Input:
        """A case with nothing that goes with it."""
        stem = os.path.basename(os.path.splitext(path)[0])
        return lonely(path, f"a case without {' or '.join(f'{stem}.{kind}' for kind in self.fellows)}")

    # Folders.

    def is_ignored(self, folder: str, entry: os.DirEntry[str]) -> bool:
        """Hidden files and folders are, and those that --ignore names: by their name, or with a / by their path."""
        if entry.name.startswith("."):
            return True
        path = os.path.relpath(entry.path, folder) if self.ignore else ""
        return any(fnmatch.fnmatchcase(path if "/" in glob else entry.name, glob) for glob in self.ignore)

    def counted(self, entries: Iterable[os.DirEntry[str]]) -> Iterator[os.DirEntry[str]]:
        """The entries of a folder; a terminal shows how many were found."""
        for entry in entries:
            self.seen += 1
            self.progress.step(self.seen)
            yield entry

    def hours_of_folder(self, folder: str) -> list[Input]:
        """The hours of a folder and of those in it. Links to folders are not followed."""
        found: list[Input] = []
        waiting = [folder]
        # Not os.walk: before Python 3.12 it calls itself for each level, and a deep folder ends it.
        while waiting:
            place = waiting.pop()
            try:
                with os.scandir(place) as entries:
                    seen = [entry for entry in self.counted(entries) if not self.is_ignored(folder, entry)]
                folders = {entry.path for entry in seen if entry.is_dir(follow_symlinks=False)}
            except OSError as fault:
                found.append(Input(place, UNREAD, (why_not(fault),)))
                continue
            waiting += folders
            files = [entry for entry in seen if entry.path not in folders]
            readable = {entry.path for entry in files if is_file(entry)}
            self.passed += sorted(entry.path for entry in files if entry.path not in readable)
            found += self.hours_of_files(sorted(readable))
        if not found:
            return [Input(folder, UNREAD, ("no hour in it: no .case, .bin, .joined or .txt file",))]
        return sorted(found, key=lambda one: one.name)

    def hours_of_files(self, paths: Sequence[str]) -> Iterator[Input]:
        """The hours of a folder's files."""
        there = set(paths)
        taken: set[str | None] = set()
        for path in paths:
            kind = kind_of(path)
            if kind not in (TEXT, CASE, JOINED) or (kind == JOINED and not self.judges):
                continue
            other = first_fellow(path, self.fellows, there.__contains__) if kind == CASE else None
            families = self.list_beside(path, there.__contains__) if kind != TEXT else None
            taken.update((path, other, families))
            if kind == CASE and other is None:
                yield self.without_fellow(path)
            else:
                yield self.made(path, second_kind(kind, other), other, families, named=True)
        for path in paths:
            if path not in taken:
                yield from self.left_over(path, there.__contains__)

    def left_over(self, path: str, is_there: Callable[[str], bool]) -> Iterator[Input]:
        """A file of a folder that no hour took: its case is missing, or it is passed over."""
        kind = kind_of(path)
        if kind in (PROPOSAL, FAMILIES, JOINED) and not self.judges:
            return
        if kind is None or hour_beside(path, is_there) is not None:
            self.passed.append(path)
        else:
            yield lonely(path, LISTLESS if kind == FAMILIES else f"a {kind} without its case")

    # What is named one by one.

    def hours_named(self, words: Sequence[str]) -> Iterator[Input]:
        named = Named(self, words)
        for at, word in enumerate(words):
            kind = kind_of(word)
            if os.path.isdir(word):
                yield from self.hours_of_folder(word)
            elif kind in (PROPOSAL, DUMP, FAMILIES):
                yield from named.fellow_at(at)
            elif kind is None:
                yield lonely(word, NO_ENDING)
            else:
                yield named.hour_at(at, kind)
        self.passed += [word for at, word in enumerate(words) if at in named.waiting and at not in named.taken]

    def all_so(self, words: Sequence[str], way: str) -> Iterator[Input]:
        """The hours of words that an option says to be all joined, texts, or pairs; a family list goes with the hour
        before it.
        """
        count, at = 2 if way == "pairs" else 1, 0
        while at < len(words):
            files, at = tuple(words[at : at + count]), at + count
            for word in files:
                if os.path.isdir(word):
                    raise InputError(word, f"a folder does not go with --{way}")
                if kind_of(word) == FAMILIES:
                    raise InputError(word, LISTLESS + " before it")
            if len(files) < count:
                raise InputError(files[-1], f"a case without its {self.fellows[0]} after it")
            families = None if way == "text" else self.list_beside(files[0], lies_there)
            beside = families is not None
            if at < len(words) and kind_of(words[at]) == FAMILIES:
                families, beside, at = words[at], False, at + 1
            kind = {"pairs": second_kind(CASE, files[-1]), "joined": JOINED, "text": TEXT}[way]
            if way == "pairs" and not self.judges:
                kind = DUMP
            yield Input(files[0], kind, files, families, beside, self.leave_out)


class Named:
    """The words of a command line, and which of them an hour took."""

    def __init__(self, gathering: Gathering, words: Sequence[str]) -> None:
        self.gathering, self.words = gathering, words
        self.places = {word: at for at, word in reversed(list(enumerate(words)))}
        self.taken: set[int] = set()
        self.waiting: set[int] = set()

    def fellow_at(self, at: int) -> Iterator[Input]:
        """A proposal, a dump or a family list. If its hour is named, that takes it by its name."""
        word, kind = self.words[at], kind_of(self.words[at])
        if at in self.taken:
            return
        if hour_beside(word, self.places.__contains__) is not None:
            self.waiting.add(at)
        else:
            yield lonely(word, (LISTLESS if kind == FAMILIES else f"a {kind} without its case") + " before it")

    def found(self, path: str, at: int, kinds: Sequence[str]) -> str | None:
        """The file of one of these kinds that goes with a path: the one of its name that is named too, else the one at
        a place, if that is of no other hour.
        """
        for kind in kinds:
            named = fellow(path, kind, self.places.__contains__)
            if named is not None:
                self.taken.add(self.places[named])
                return named
        if at < len(self.words) and at not in self.taken and kind_of(self.words[at]) in kinds:
            if hour_beside(self.words[at], self.places.__contains__) is None:
                self.taken.add(at)
                return self.words[at]
        return None

    def hour_at(self, at: int, kind: str) -> Input:
        """The hour of a case, a joined file or a text. What is named goes before what lies next to it."""
        word, other = self.words[at], None
        if kind == TEXT:
            return self.gathering.made(word, TEXT, None, None, named=True)
        if kind == CASE:
            fellows = self.gathering.fellows
            other = self.found(word, at + 1, fellows) or first_fellow(word, fellows, lies_there)
            if other is None:
                return self.gathering.without_fellow(word)
        named = self.found(word, max(at, self.places.get(other or word, at)) + 1, (FAMILIES,))
        families = named or self.gathering.list_beside(word, lies_there)
        return self.gathering.made(word, second_kind(kind, other), other, families, named is not None)


def is_file(entry: os.DirEntry[str]) -> bool:
    """Whether an entry of a folder can be read, or is a link that leads nowhere: that is said when it is read."""
    # Of a link in a circle, or through what cannot be entered, Python raises the error.
    with contextlib.suppress(OSError):
        if entry.is_file():
            return True
    return entry.is_symlink() and not os.path.exists(entry.path) and kind_of(entry.name) is not None


def gather(words: Sequence[str], way: str | None = None) -> list[Input]:
    """The hours that words name."""
    return Gathering(way).hours(words)

