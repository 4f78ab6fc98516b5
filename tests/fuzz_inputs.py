"""What tests/fuzz_tools gives to lta: stored files with damage, folders with odd entries, and command lines over them.
Everything follows from one random.Random, so that a seed repeats it. A file has at most some MB. There are no pipes and
no devices, which could wait or never end.
"""

from __future__ import annotations

import argparse
import contextlib
import functools
import os
import pathlib
import random
import re
from collections.abc import Sequence
from dataclasses import dataclass

from lta import commands, dump_format, hour, judge_report, library, schema, usage
from lta.amounts import Grains, Microcents
from lta.results import Result
from records.columns import in_columns

ROOT = pathlib.Path(__file__).resolve().parent.parent

# Stored files.

HOURS, FAMILIES, DUMPS = (sorted((ROOT / name).glob("*.txt")) for name in ("hours", "families", "dumps"))
ACCEPTED = [path for path in HOURS + FAMILIES if "\n# expect 0 0\n" in path.read_text(encoding="utf-8")]
SHEETS = sorted((ROOT / "sheets").glob("*.csv"))
OTHERS = sorted((ROOT / "samples").iterdir()) + sorted((ROOT / "queue").iterdir()) + [ROOT / "sheets" / "runs.txt"]


@functools.lru_cache(maxsize=None)
def stored_hour(path: pathlib.Path) -> dict[str, bytes]:
    """The files that a stored text gives, by kind, the text among them."""
    text = path.read_text(encoding="utf-8")
    if dump_format.is_text(text):
        case, dump = dump_format.build(text, path.parent)
        return {"text": text.encode(), "case": case, "dump": dump, "columned": in_columns(case)}
    case, proposal, families = hour.build_families(text, path.parent)
    made = {"text": text.encode(), "case": case, "proposal": proposal, "joined": case + proposal}
    made["columned"] = in_columns(case)
    if families is not None:
        made["families"] = families
    return made


# Damage.

# Words that stand for a number and are none, or one that no field takes: by kind.
ODD_NUMBERS = (
    ("0", "-0", "-1", "65535", "65536", "4294967295", "4294967296", "-2147483649"),
    ("9" * 25, "-" + "9" * 400, "9" * 5000, "9" * 20_000),
    ("1.5", ".5", "1.", "1e9", "1e400", "-1e-400", "1e99999", "1." + "3" * 5000),
    ("0x10", "0x1p5000", "0x1.8p-1", "1_0", "+1", "nan", "inf", "-inf", "bits:7ff8000000000001", "", "none"),
    ("٣", "７", "²", "½", "−1"),
)
# Characters that some readers take for the end of a line, a blank, or nothing.
ODD_CHARACTERS = ["\0", "\r", "\x0b", "\x0c", "\x1c", "\x85", "\xa0", "\u2028", "\ufeff", "\U0010ffff", "\x1b[31m"]
LINES = [
    *("cut case {}", "cut proposal {}", "cut dump {}", "append case {:x}", "append families", "append dump 00ff"),
    *("byte case {} 255", "byte proposal {} 0", "byte families {} 1", "counts zones {}", "counts orders {} links {}"),
    *("mark XYZ", "mark 004c54", "link 0 1 {}", "order 0 buy {} {}", "volume {}", "flow {}", "shadow {}", "parent {}"),
    *("families version {}", "dump share {} system {}", "accepted {}", "sheet s.csv", "sheet .", "sheet none"),
    *("# expect {} {}", "# expect-apart {} {}", "# expect-without {} {}", "junk {}"),
    "# totals welfare {} bound {} gap 0 rent 0 owed 0",
]
NUMBER = re.compile(rb"-?\d+(?:\.\d+)?")
OPENING = re.compile(rb"case|proposal|families|dump|# expect|# totals|# becomes|# shortfall")
LONG_LINES = (100, 10_000, 500_000, 3_000_000)
LONG_TAIL = 2**20


def odd_number(numbers: random.Random) -> str:
    # One of a MB is rare, since it makes a turn slow.
    return numbers.choice(numbers.choice(ODD_NUMBERS)) if numbers.random() < 0.99 else "9" * 1_100_000


def near_number(numbers: random.Random, word: bytes) -> bytes:
    """A number like another: one more or less, ten times as much, or its sign changed."""
    digits = word.replace(b".", b"")
    if len(digits) > 20:
        return b"1"
    value = int(digits)
    return str(numbers.choice((value + 1, value - 1, 10 * value, -value, value // 2))).encode()


def with_number(numbers: random.Random, lines: list[bytes], _: list[bytes]) -> None:
    at = numbers.randrange(len(lines))
    if numbers.random() < 0.5:
        # The first lines have the counts and what is expected.
        at = numbers.choice([n for n, line in enumerate(lines) if OPENING.match(line)] or [at])
    found = list(NUMBER.finditer(lines[at]))
    if found:
        start, end = numbers.choice(found).span()
        near = near_number(numbers, lines[at][start:end])
        word = odd_number(numbers).encode() if numbers.random() < 0.5 else near
        lines[at] = lines[at][:start] + word + lines[at][end:]


def with_word(numbers: random.Random, lines: list[bytes], others: list[bytes]) -> None:
    at = numbers.randrange(len(lines))
    words, other = lines[at].split(b" "), numbers.choice(others).split(b" ")
    words[numbers.randrange(len(words))] = numbers.choice(other)
    lines[at] = b" ".join(words)


def with_sheet(numbers: random.Random, lines: list[bytes], _: list[bytes]) -> None:
    """The branches from the sheet that lies in the folder, for as many zones as it may have."""
    opening = b"case version %d zones %d tolerance 0" % (numbers.choice((1, 2)), numbers.choice((0, 1, 1, 2, 3, 16)))
    lines[:] = [line for line in lines if not line.startswith((b"branch", b"case"))]
    lines[:0] = [opening, b"sheet s.csv"]


def with_line(numbers: random.Random, lines: list[bytes], others: list[bytes]) -> None:
    line = numbers.choice(LINES).format(numbers.randrange(300), numbers.choice((0, 1, 255, 70_000)))
    lines.insert(numbers.randrange(len(lines) + 1), numbers.choice((line.encode(), numbers.choice(others))))


def dropped(numbers: random.Random, lines: list[bytes], _: list[bytes]) -> None:
    at = numbers.randrange(len(lines))
    del lines[at : at + numbers.choice((1, 1, 1, 5, 1000))]


def doubled(numbers: random.Random, lines: list[bytes], _: list[bytes]) -> None:
    at = numbers.randrange(len(lines))
    lines[at:at] = lines[at : at + numbers.choice((1, 1, 3, 300))]


def swapped(numbers: random.Random, lines: list[bytes], _: list[bytes]) -> None:
    first, second = numbers.randrange(len(lines)), numbers.randrange(len(lines))
    lines[first], lines[second] = lines[second], lines[first]


def with_character(numbers: random.Random, lines: list[bytes], _: list[bytes]) -> None:
    at = numbers.randrange(len(lines))
    place = numbers.randrange(len(lines[at]) + 1)
    lines[at] = lines[at][:place] + numbers.choice(ODD_CHARACTERS).encode() + lines[at][place:]


def with_long_line(numbers: random.Random, lines: list[bytes], _: list[bytes]) -> None:
    word = numbers.choice((b"# ", b"", b"branch ", b"append case ", b"order 0 buy "))
    piece = numbers.choice((b"0", b"9", b" 1", b"ab", b"#", b"\xe2\x82\xac"))
    # The longest are rare, since they make a turn slow.
    size = numbers.choices(LONG_LINES, (50, 40, 9, 1))[0]
    lines.insert(numbers.randrange(len(lines) + 1), word + piece * (size // len(piece)))


LINE_DAMAGE = [with_number] * 5 + [with_line] * 3
LINE_DAMAGE += [with_sheet, with_word, dropped, doubled, swapped, with_character, with_long_line]


def damaged_text(numbers: random.Random, text: bytes, other: bytes) -> bytes:
    """A text with lines, words and numbers changed, and perhaps other ends of lines or other bytes."""
    lines, others = text.split(b"\n"), other.split(b"\n")
    for _ in range(numbers.choice((1, 1, 1, 2, 4))):
        numbers.choice(LINE_DAMAGE)(numbers, lines, others)
        lines = lines or [b""]
    text = b"\n".join(lines)
    way = numbers.randrange(20)
    if way == 0:
        return text.replace(b"\n", b"\r\n")
    if way == 1:
        return b"\xef\xbb\xbf" + text
    if way == 2:
        return text + other
    if way == 3:
        return text.decode(errors="replace").encode("utf-16")
    return damaged_bytes(numbers, text, other) if way < 6 else text


def damaged_bytes(numbers: random.Random, data: bytes, other: bytes) -> bytes:
    """A file with bytes changed, cut, doubled, put in, or followed by another."""
    made = bytearray(data)
    for _ in range(numbers.choice((1, 1, 2, 5))):
        way, at = numbers.randrange(10), numbers.randrange(len(made) + 1)
        if way < 5 and made:
            # The header has the counts, on which all else hangs.
            place = numbers.randrange(min(len(made), 16 if way < 2 else len(made)))
            made[place] = numbers.choice((0, 1, 2, 127, 128, 255, made[place] ^ 1, numbers.randrange(256)))
        elif way == 5:
            del made[at:]
        elif way == 6:
            del made[at : at + numbers.randrange(1, 20)]
        elif way == 7:
            made[at:at] = numbers.randbytes(numbers.randrange(1, 20))
        elif way == 8:
            made += numbers.choice((bytes(made), other, b"\0", b"\n"))
        elif numbers.randrange(5) == 0:
            made = bytearray(numbers.randbytes(numbers.randrange(300)))
    # Rarely so long that only the beginning is read.
    return bytes(made) + bytes(LONG_TAIL if numbers.random() < 0.02 else 0)


def damaged(numbers: random.Random, kind: str, data: bytes, other: bytes) -> bytes:
    """A file of a kind, often as it is stored: else a command would seldom come past its first file."""
    if numbers.random() < (0.4 if kind == "text" else 0.66):
        return data
    damage = damaged_text if kind in ("text", "pairs", "sheet") else damaged_bytes
    return damage(numbers, data, other)


# Folders.

SUFFIXES = {
    "text": (".txt",),
    "case": (".case",),
    "proposal": (".proposal",),
    "families": (".families",),
    "joined": (".bin", ".joined"),
    "dump": (".dump",),
    "columned": (".ltk", ""),
    "pairs": (".pairs", ""),
}
# The kinds of files that a command asks for, where it does not take an hour in any form.
ASKED = {"column": ("case",), "restore": ("columned",), "build": ("text",), "help": ()}
HOUR = ("text", "case", "proposal", "families", "joined", "dump")
STEMS = [
    *("a", "b", "hour", "p1", "name with spaces", "new\nline", "tab\tbell\a", "\udcff\udcfe", "ünï-€", "-dash"),
    *("--force", ".hidden", "n" * 200, "#", "quote'\"", "<&>", "\x1b[31m", "a.b", "x.case", "CON", "%s{}", "\u2028"),
]
PLACES = ["", "", "", "", "sub", "sub/deeper", "with space", "\udcff"]
# Levels of a deep folder: more than the interpreter's stack has.
DEPTH = 1200


def pairs(numbers: random.Random) -> bytes:
    """Pairs of zones, some of which an hour may have."""
    zones = [numbers.choice((0, 0, 1, 1, 2, 3, 200)) for _ in range(2 * numbers.choice((1, 2, 4, 40)))]
    return b"".join(b"%d %d\n" % pair for pair in zip(zones[::2], zones[1::2]))


class Folder:
    """A folder for a command, both by chance: the hours in it, each a file by kind, and the odd entries. Names count
    from the folder. One that is to stay has no entry that is hard to remove: what is unreadable or deep is only named.
    """

    def __init__(self, numbers: random.Random, top: str, stays: bool = False) -> None:
        self.numbers, self.top, self.stays = numbers, top, stays
        self.command = numbers.choice(list(parsers()))
        self.hours: list[dict[str, str]] = []
        self.odd: list[str] = []
        self.unreadable: list[str] = []
        self.deep = False
        os.makedirs(top)
        for _ in range(numbers.choice((1, 1, 1, 2, 3))):
            self.add_hour()
        sheet = numbers.choice(SHEETS).read_bytes()
        self.put("s.csv", damaged(numbers, "sheet", sheet, sheet))
        if numbers.random() < 0.4:
            for _ in range(numbers.randrange(1, 5)):
                self.add_odd()
        for name in self.unreadable if not stays else ():
            os.chmod(self.path(name), 0)

    def path(self, name: str) -> str:
        return os.path.join(self.top, name)

    def put(self, name: str, data: bytes) -> str:
        """Writes a file, unless its name is taken."""
        path = self.path(name)
        os.makedirs(os.path.dirname(path), exist_ok=True)
        if not os.path.lexists(path):
            with open(path, "wb") as file:
                file.write(data)
        return name

    def new_name(self, kinds: Sequence[str]) -> str:
        place, stem = self.numbers.choice(PLACES), self.numbers.choice(STEMS)
        return os.path.join(place, stem + self.numbers.choice(kinds))

    def add_hour(self) -> None:
        """The files of a stored hour, some with damage, under one name with the endings of their kinds, mostly."""
        numbers = self.numbers
        stored = (HOURS, HOURS, ACCEPTED, ACCEPTED, FAMILIES, DUMPS) if self.command != "dump" else (DUMPS,)
        source = stored_hour(numbers.choice(numbers.choice(stored)))
        other = stored_hour(numbers.choice(HOURS))
        place, stem = numbers.choice(PLACES), numbers.choice(STEMS)
        # A file more of any kind, which the command does not ask for.
        kinds = {*ASKED.get(self.command, HOUR), numbers.choice(sorted(source))}
        files = {kind: data for kind, data in source.items() if kind in kinds}
        if self.command == "intuitive":
            files["pairs"] = pairs(numbers)
        if "text" in files and numbers.random() < 0.1:
            files["text"] = numbers.choice(OTHERS).read_bytes()
        made = {}
        capitals = numbers.random() < 0.1
        for kind, data in files.items():
            suffix = numbers.choice(SUFFIXES[kind] if numbers.random() < 0.9 else ("", ".txt", ".case", ".other"))
            suffix = numbers.choice((suffix.upper(), suffix.title(), suffix.swapcase())) if capitals else suffix
            damaged_data = damaged(numbers, kind, data, other.get(kind, other["case"]))
            made[kind] = self.put(os.path.join(place, stem + suffix), damaged_data)
        self.hours.append(made)

    def add_odd(self) -> None:
        """An entry that is no file of an hour, or one that cannot be read."""
        numbers = self.numbers
        name = self.new_name((".case", ".proposal", ".txt", ".bin", ".families", "", ".png", "~"))
        path = self.path(name)
        os.makedirs(os.path.dirname(path), exist_ok=True)
        if os.path.lexists(path):
            return
        way = numbers.randrange(11)
        if way < 6:
            up = os.pardir if os.path.dirname(name) else os.curdir
            # In a circle, through a file, or to a name that no file can have, too.
            os.symlink(("none", os.path.basename(name), os.curdir, up, self.path("s.csv/x"), "n" * 300)[way], path)
        elif way == 6:
            os.symlink(self.path(numbers.choice(list(self.hours[0].values()))), path)
        elif way == 7:
            os.mkdir(path)
        elif way == 8 and not self.deep and numbers.random() < 0.03:
            self.deep = True
            for depth in range(1, DEPTH + 1 if not self.stays else 2):
                os.mkdir(self.path("d/" * depth))
            name = "d"
        elif way == 9:
            os.mkdir(path)
            self.unreadable.append(name)
        else:
            self.put(name, numbers.choice((b"", b"\n", b"LTC", b"LTP", b"LTF", b"LTK", b"\xff\xd8\xff", bytes(100))))
            if numbers.random() < 0.5:
                self.unreadable.append(name)
        self.odd.append(name)

    def remove(self) -> None:
        """Removes the folder. What cannot be entered is made so that it can, and a deep one is removed from its end."""
        for name in self.unreadable:
            with contextlib.suppress(FileNotFoundError):
                os.chmod(self.path(name), 0o700)
        for depth in range(DEPTH, 0, -1) if self.deep else ():
            os.rmdir(self.path("d/" * depth))
        for place, folders, names in os.walk(self.top, topdown=False):
            for name in names:
                os.unlink(os.path.join(place, name))
            for name in folders:
                path = os.path.join(place, name)
                remove = os.unlink if os.path.islink(path) else os.rmdir
                remove(path)
        os.rmdir(self.top)


# Command lines.

# The options whose value is a file that is written, by the name that the parser has for them.
OUTPUTS = ("out", "answer", "junit", *commands.BUILT)
# What starts a program.
NOT_TRIED = {"library"}
# How often an option is given; of those of build one is enough, and what all files are is mostly said wrongly.
LIKELY = {"out": 0.6, "force": 0.3, "case": 0.3, "way": 0.04, "family_list": 0.04, "pairs": 0.3}
UNKNOWN = ("--nope", "-x", "--json=1", "--js", "--forc", "-o", "--pairs", "--case", "--", "-", "", "-h", "--help", "-9")


def parsers() -> dict[str, argparse.ArgumentParser]:
    """The parser of each command, by its name, from lta's own: a new command is tried too."""
    return {command.name: usage.parser(command) for command in commands.COMMANDS}


def output_options(command: str) -> set[str]:
    """The options of a command that name a file to be written; of no command there are none."""
    actions = parsers()[command]._actions if command in parsers() else ()
    return {name for action in actions if action.dest in OUTPUTS for name in action.option_strings}


@dataclass(frozen=True)
class Line:
    """A command line: its words, and what stands on standard input."""

    words: list[str]
    stdin: bytes | None

    @property
    def command(self) -> str:
        return self.words[0] if self.words else ""

    @property
    def outputs(self) -> list[str]:
        """The files that it names to be written."""
        options = output_options(self.command)
        found = [after for word, after in zip(self.words, self.words[1:]) if word in options]
        parts = [word.partition("=") for word in self.words]
        return found + [value for name, equals, value in parts if equals and name in options]


def hour_words(numbers: random.Random, made: dict[str, str]) -> list[str]:
    """An hour as a command line names it."""
    ways = [("case", "proposal"), ("case", "proposal", "families"), ("joined",), ("joined", "families")] * 4
    ways += [("text",)] * 8 + [("case",), ("proposal", "case"), ("case", "dump"), ("case", "families")]
    ways = [way for way in ways if all(kind in made for kind in way)]
    return [made[kind] for kind in numbers.choice(ways)]


TAKING_FOLDERS = {command.name for command in commands.COMMANDS if command.takes_hours} | {"dump"}


def words_of(numbers: random.Random, command: str, folder: Folder) -> list[str]:
    """The files that a command is given, most of the time such as it asks for."""
    made = numbers.choice(folder.hours)
    if command == "judge":
        count = numbers.choice((0, 1, 1, 2, 3))
        words = [word for _ in range(count) for word in hour_words(numbers, numbers.choice(folder.hours))]
        return words if numbers.random() < 0.7 else [numbers.choice((".", "sub", os.pardir + "/fuzzed"))]
    if command in TAKING_FOLDERS and numbers.random() < 0.15:
        return [numbers.choice((".", "sub"))]
    if command == "dump":
        return [made["case"], made["dump"]] if "dump" in made and numbers.random() < 0.6 else [made["text"]]
    if command in ("column", "restore"):
        return [made["case" if command == "column" else "columned"]]
    if command == "build":
        return [made["text"]]
    if command == "diff":
        return [folder.put(name, result_file(numbers)) for name in ("one", "other")]
    if command == "help":
        return ["text"] if numbers.random() < 0.5 else []
    if command == "field":
        offset = numbers.choice((str(numbers.randrange(60)), hex(numbers.randrange(60)), odd_number(numbers)))
        return [*hour_words(numbers, made), offset]
    return hour_words(numbers, made)


def result_file(numbers: random.Random) -> bytes:
    """A result file of judge, in any form, for diff; often damaged."""
    welfare, bound, gap, rent, owed = map(Microcents, (1, -(2**60), 3, 4, 5))
    accepted = library.Judgement(0, 0, welfare, bound, gap, rent, owed, (Grains(6), Grains(-7)))
    judgements = [accepted, library.Judgement(24, 3)]
    choices = [Result("a.case", judgement, families="none") for judgement in judgements]
    choices += [Result("=b", judgements[0], way="apart"), Result("a.case", error="a.case: gone")]
    choices += [Result("\udcff", judgements[0]), Result("-", error="new\nline")]
    made = [judge_report.record(numbers.choice(choices)) for _ in range(numbers.randrange(4))]
    lines = "".join(map(schema.json_line, made))
    form = numbers.choice(("json", "jsonl", "csv"))
    text = schema.in_form(form, schema.JUDGE, made).encode(errors="backslashreplace")
    return damaged_text(numbers, text, lines.encode()) if numbers.random() < 0.6 else text


def any_file(numbers: random.Random, folder: Folder) -> str:
    return numbers.choice(list(numbers.choice(folder.hours).values()))


def any_word(numbers: random.Random, folder: Folder) -> str:
    """A word of any kind: a file, an odd entry, a folder, or none of them."""
    odd = numbers.choice(folder.odd or ["."])
    return numbers.choice((any_file(numbers, folder), odd, ".", "none.case", "-", "", "sub"))


def output_name(numbers: random.Random, folder: Folder) -> str:
    """A file to be written: a new one, most of the time."""
    others = ("none/out", "new\nout", "-", any_file(numbers, folder), any_word(numbers, folder))
    return numbers.choice(("out", "out", "out", "out.html", "sub/out", *others))


def options_of(numbers: random.Random, parser: argparse.ArgumentParser, folder: Folder) -> list[list[str]]:
    """Some of a command's options, each as one or two words."""
    groups = []
    for action in parser._actions:
        if not action.option_strings or action.dest in NOT_TRIED:
            continue
        if numbers.random() > LIKELY.get(action.dest, 0.15):
            continue
        name = numbers.choice(action.option_strings)
        if action.nargs == 0:
            groups.append([name])
            continue
        value = output_name(numbers, folder) if action.dest in OUTPUTS else any_word(numbers, folder)
        if action.dest == "pairs" and numbers.random() < 0.7:
            value = folder.hours[0].get("pairs", "none")
        groups.append([f"{name}={value}"] if name.startswith("--") and numbers.random() < 0.3 else [name, value])
    if groups and numbers.random() < 0.03:
        groups.append(numbers.choice(groups))
    return groups


def command_line(numbers: random.Random, folder: Folder) -> Line:
    """A command over a folder's files."""
    command = folder.command
    words = [[word] for word in words_of(numbers, command, folder)]
    groups = options_of(numbers, parsers()[command], folder)
    if numbers.random() < 0.2:
        words += [[any_word(numbers, folder)] for _ in range(numbers.randrange(3))]
        numbers.shuffle(words)
    if numbers.random() < 0.06:
        groups.append([numbers.choice(UNKNOWN)])
    for group in groups:
        words.insert(numbers.randrange(len(words) + 1), group)
    odd: list[list[str]] = [[], ["nonsense"], ["--help"], ["-h"], [""]]
    first = [command] if numbers.random() < 0.98 else numbers.choice(odd)
    return Line(first + [word for group in words for word in group], standard_input(numbers))


def standard_input(numbers: random.Random) -> bytes | None:
    """What a command reads where it is given -, or None where standard input is closed."""
    if numbers.random() < 0.05:
        return None
    source = stored_hour(numbers.choice(HOURS))
    return damaged(numbers, "joined", source["joined"], source["case"])
