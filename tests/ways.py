"""A program run four ways: on the language's interpreter and compiled with checks (`rt try`, from its sources, with no
proof), and as LLVM and as Rattle's own compiler build it once it is proved (`rt run`). tests/four_ways and
tests/four_ways_made share it.
"""

from __future__ import annotations

import concurrent.futures
import os
import pathlib
import re
import shutil
import subprocess
import tempfile
from collections.abc import Iterable, Sequence
from dataclasses import dataclass, field
from typing import TYPE_CHECKING

# First: it puts tools/ on the path.
import stored  # noqa: F401

import built

if TYPE_CHECKING:
    from stored import Count

ROOT = pathlib.Path(__file__).resolve().parent.parent
CRATES = ROOT / "crates"
PROGRAMS = ROOT / "target" / "four_ways"
INTERPRETER, CHECKED = "the interpreter", "the program compiled with checks"
# The compilers of proved programs, as rt names them.
BACKENDS = {"llvm": "the program as LLVM builds it", "rattle": "the program as Rattle's own compiler builds it"}
WAYS = (INTERPRETER, CHECKED, *BACKENDS.values())
SECONDS = 60
# How rt try says that both of its runs ended well and wrote what is due.
WELL = "run=ended status=0 runners=2 output=expected proved=no"
ONE_ALONE = WELL.replace("runners=2", "runners=1")
STEPS_OVER = re.compile(r"^interpreter: no-answer: the run did not finish within \d+ steps", re.M)
DIFFERS_AT = re.compile(r"^the output differs from `\w+\.stdout`: at byte (\d+)", re.M)


@dataclass(frozen=True)
class Piece:
    """What a program is given and what it must print for it; pieces stand one after the other in an input."""

    name: str
    given: bytes
    due: bytes


@dataclass
class Tried:
    """Pieces that were run together: what is amiss, by the way, what was said, and where an output differs."""

    pieces: tuple[Piece, ...]
    faults: dict[str, str] = field(default_factory=dict)
    said: str = ""
    places: list[int] = field(default_factory=list)

    @property
    def only_steps_over(self) -> bool:
        """Whether all that is amiss is that the interpreter had not enough steps."""
        return list(self.faults) == [INTERPRETER] and STEPS_OVER.search(self.said) is not None

    @property
    def first_different(self) -> Piece | None:
        """The piece that one of the ways printed something else for; None where no way did."""
        if not self.places:
            return None
        end = 0
        for piece in self.pieces:
            end += len(piece.due)
            if min(self.places) < end:
                break
        return piece

    def take_case(self, line: str, said: str) -> None:
        """What rt try said of both of its runs; the line is that of the case."""
        self.said += said
        if line == WELL:
            return
        self.places += [int(place) for place in DIFFERS_AT.findall(said)]
        why = f"rt try said {line or said.strip()[-200:] or 'nothing'}"
        # One runner that ended well leaves the other.
        lacks = [INTERPRETER, CHECKED]
        if line == ONE_ALONE:
            lacks = [INTERPRETER] if re.search(r"^checked: ended status=0$", said, re.M) else [CHECKED]
        self.faults.update({way: f"{way}: {why}" for way in lacks})

    def take_run(self, way: str, status: int | str, printed: bytes) -> None:
        """How a program that was built ended, and what it printed."""
        due = joined(self.pieces)["stdout"]
        if printed != due:
            shorter = min(len(printed), len(due))
            at = next((n for n in range(shorter) if printed[n] != due[n]), shorter)
            self.places.append(at)
            self.faults[way] = f"{way}: its output differs at byte {at}"
        elif status:
            self.faults[way] = f"{way}: it ended with status {status}"
        if way in self.faults:
            self.said += f"{self.faults[way]}\n"


def programs() -> list[str]:
    """The names of all programs of the repository."""
    return sorted(source.parent.parent.name for source in CRATES.glob("*/src/main.rt"))


def joined(pieces: Iterable[Piece]) -> dict[str, bytes]:
    """The files that a program is run with, by name."""
    return {"stdin": b"".join(piece.given for piece in pieces), "stdout": b"".join(piece.due for piece in pieces)}


def built_by(backend: str, program: str) -> tuple[pathlib.Path | None, str]:
    """The program as a compiler builds it once it is proved, or nothing, and what rt said. It is built again only if
    its sources have changed."""
    path, left = PROGRAMS / f"{program}.{backend}", CRATES / program / "out" / program
    if built.is_current(path, built.sources_hash()):
        return path, ""
    left.unlink(missing_ok=True)
    # rt builds a program by running it: here on an empty input, so its own status says nothing.
    run = subprocess.run(
        ["rt", "run", "--backend", backend, *built.EVERYWHERE],
        cwd=CRATES / program,
        stdin=subprocess.DEVNULL,
        stdout=subprocess.DEVNULL,
        stderr=subprocess.PIPE,
        text=True,
        errors="replace",
    )
    if not left.is_file():
        return None, run.stderr
    PROGRAMS.mkdir(parents=True, exist_ok=True)
    shutil.copy(left, path)
    built.write_record(path, built.sources_hash())
    return path, run.stderr


def run_built(program: pathlib.Path, pieces: Sequence[Piece]) -> tuple[int | str, bytes]:
    """The status of a program that was built, run on pieces in a folder of its own, and what it printed."""
    with tempfile.TemporaryDirectory() as folder:
        given = joined(pieces)["stdin"]
        nothing: dict[str, str] = {}
        try:
            run = subprocess.run([program], cwd=folder, env=nothing, input=given, stdout=subprocess.PIPE, timeout=SECONDS)
        except subprocess.TimeoutExpired as late:
            return f"none after {SECONDS} seconds", late.stdout or b""
    return run.returncode, run.stdout


def said_alone(program: str, pieces: Sequence[Piece]) -> str:
    """What rt try says of pieces by themselves. With --cases it does not say why one of its two runs has no answer."""
    given = joined(pieces)["stdin"]
    run = subprocess.run(["rt", "try"], cwd=CRATES / program, input=given, stdout=subprocess.DEVNULL, stderr=subprocess.PIPE)
    return run.stderr.decode(errors="replace")


def tried_cases(program: str, cases: Sequence[Sequence[Piece]]) -> list[Tried]:
    """Runs cases of pieces by rt try, which builds once for all of them, and as both compilers build the program."""
    found = [Tried(tuple(pieces)) for pieces in cases]
    with tempfile.TemporaryDirectory() as name:
        for n, pieces in enumerate(cases):
            files = joined(pieces)
            pathlib.Path(name, f"case{n:04}").write_bytes(files["stdin"])
            pathlib.Path(name, f"case{n:04}.stdout").write_bytes(files["stdout"])
        run = subprocess.run(
            ["rt", "try", "--cases", name],
            cwd=CRATES / program,
            stdin=subprocess.DEVNULL,
            stdout=subprocess.DEVNULL,
            stderr=subprocess.PIPE,
            text=True,
            errors="replace",
        )
    said = ""
    lines: dict[int, tuple[str, str]] = {}
    for line in run.stderr.splitlines():
        case = re.match(r"case=case(\d+) (.*)", line)
        if case:
            lines[int(case[1])], said = (case[2], said), ""
        else:
            said += f"{line}\n"
    for n, one in enumerate(found):
        line, words = lines.get(n, ("", said))
        if line == ONE_ALONE and not words:
            words = said_alone(program, one.pieces)
        one.take_case(line, words)
    return found


def tried_all(parts: Iterable[tuple[str, Sequence[Piece]]]) -> list[list[Tried]]:
    """Runs each part, a program and its pieces, several at a time; what comes back is in the parts' order. If a part
    takes the interpreter more steps than it makes, each half is run by itself."""
    jobs = max(int(os.environ.get("RT_JOBS") or min(os.cpu_count() or 1, 4)), 1)
    left = [(n, program, pieces) for n, (program, pieces) in enumerate(parts)]
    found: list[list[Tried]] = [[] for _ in left]
    # One after the other: rt builds in the program's own folder.
    executables = {(program, backend): built_by(backend, program) for program in {one[1] for one in left} for backend in BACKENDS}
    while left:
        groups = [
            [one for one in left if one[1] == program][first::jobs] for program in sorted({one[1] for one in left}) for first in range(jobs)
        ]
        groups = [group for group in groups if group]
        with concurrent.futures.ThreadPoolExecutor(jobs) as pool:
            tries = pool.map(lambda group: tried_cases(group[0][1], [pieces for _, _, pieces in group]), groups)
            came = [(part, one) for group, ones in zip(groups, tries) for part, one in zip(group, ones)]
        left = []
        for (n, program, pieces), one in came:
            if one.only_steps_over and len(pieces) > 1:
                left += [(n, program, pieces[::2]), (n, program, pieces[1::2])]
            else:
                found[n].append(one)
                for backend, way in BACKENDS.items():
                    path, said = executables[program, backend]
                    if path is None:
                        one.faults[way] = f"{way}: it was not built: {built.one_line(said)}"
                    else:
                        one.take_run(way, *run_built(path, pieces))
    return found


def check(count: Count, name: str, one: Tried) -> None:
    """Counts a check for each way, and shows what is said of one that fails."""
    for way in WAYS:
        count.check(way not in one.faults, f"{name}: {one.faults.get(way)}")
    if one.only_steps_over:
        print(f"{name}: the interpreter has too few steps for {one.pieces[0].name}; store a shorter input")
    elif one.first_different:
        print(f"{name}: the first that differs is {one.first_different.name}")
    if one.faults:
        print(one.said.rstrip("\n"))
