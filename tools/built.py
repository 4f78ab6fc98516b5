#!/usr/bin/env python3
"""built.py COMMAND PRODUCT...: builds products of this tree: library, desk, shared.

A product is built again only if its sources have changed in content; time stamps do not count. Next to each product is
PRODUCT.built, with the hash of what it was built from and its own hash. Products share their crates: what is proved for
one is not proved again for another. Only one build runs at a time in a clone, and a second waits for it. COMMAND is the
name under which messages are written: desk, lta or make.
"""

from __future__ import annotations

import contextlib
import errno
import fcntl
import functools
import hashlib
import json
import os
import pathlib
import re
import shutil
import subprocess
import sys
import tempfile
from dataclasses import dataclass
from typing import IO, Any, Callable, Iterable, Iterator, Sequence

ROOT = pathlib.Path(__file__).resolve().parent.parent
TARGET = ROOT / "target"
KIT = ROOT / "kit.txt"
# All that rt says in a build, and the lock that a build holds.
LOG, LOCK = TARGET / "build.log", TARGET / "build.lock"
LINKER = ROOT / "tools" / "link_shared"
# What the shared object is linked by, besides the library and the compiler.
LINKED_BY = (LINKER, ROOT / "host" / "lta_judgement.map", ROOT / "include" / "lta_judgement.h")
# Tells the user a line.
Say = Callable[[str], None]


class BuildError(Exception):
    """A product cannot be built; the message is one line."""


@dataclass(frozen=True)
class Proved:
    """A product of rt: what messages call it, its file, its crate, the command of rt that builds it there, and the file
    that this leaves."""

    called: str
    path: pathlib.Path
    crate: str
    command: str
    left: pathlib.Path


CRATES = ROOT / "crates"
# For every x86-64 processor: by itself rt compiles for x86-64-v2, which has instructions that older ones lack.
EVERYWHERE = ["--cpu", "x86-64"]
LIBRARY = Proved("the library", TARGET / "staticlib" / "libhost.a", "host", "lib", CRATES / "host/out/libhost.a")
# rt builds a program by running it: here on an empty input.
DESK = Proved("the program", TARGET / "bin" / "desk", "desk", "run", CRATES / "desk/out/desk")
SHARED = TARGET / "shared" / "liblta_judgement.so"


# Content.


def sha256_of(path: str | pathlib.Path) -> str:
    return hashlib.sha256(pathlib.Path(path).read_bytes()).hexdigest()


def hash_of(files: Iterable[str | pathlib.Path], words: Iterable[str] = ()) -> str:
    """One hash of files, by name and content, and of words. A file that is gone meanwhile counts as none."""
    whole = hashlib.sha256("".join(f"{word}\n" for word in words).encode())
    for path in files:
        try:
            whole.update(f"{sha256_of(path)}  ".encode() + os.fsencode(os.path.relpath(path, ROOT)) + b"\n")
        except FileNotFoundError:
            continue
    return whole.hexdigest()


@functools.lru_cache(maxsize=None)
def sources_hash() -> str:
    """The hash of what the library and the program are proved and built of, as it stood when it was first asked."""
    found = [str(KIT), str(ROOT / "crates.txt")]
    for folder, folders, names in os.walk(CRATES):
        if os.path.dirname(folder) == str(CRATES):
            # What rt keeps there is made of the rest.
            folders[:] = [name for name in folders if name != "out"]
        found += [os.path.join(folder, name) for name in names]
    return hash_of(sorted(found))


def record_of(path: pathlib.Path) -> pathlib.Path:
    return path.with_name(f"{path.name}.built")


def read_record(path: pathlib.Path) -> dict[str, Any]:
    """What the record next to a product says; empty where there is none that can be read."""
    try:
        record = json.loads(record_of(path).read_text())
    except (OSError, ValueError):
        return {}
    return record if isinstance(record, dict) else {}


def is_intact(path: pathlib.Path) -> bool:
    """Whether a product is the one that its record speaks of."""
    try:
        return read_record(path).get("sha256") == sha256_of(path)
    except OSError:
        return False


def is_current(path: pathlib.Path, made_of: str) -> bool:
    return read_record(path).get("made_of") == made_of and is_intact(path)


def is_library_current() -> bool:
    """Whether the library is there and of these sources. Builds nothing."""
    return is_current(LIBRARY.path, sources_hash())


def write_record(path: pathlib.Path, made_of: str, **more: object) -> None:
    record: dict[str, object] = {"made_of": made_of, "sha256": sha256_of(path), **more}
    record_of(path).write_text(json.dumps(record, indent=1) + "\n")


# Proving.


def one_line(text: str) -> str:
    """The last line of what a command printed that says something."""
    lines = [line.strip() for line in text.splitlines() if line.strip()]
    return lines[-1] if lines else "it said nothing"


def run(command: Sequence[str], what: str) -> str:
    """Runs a command and gives what it printed. If it fails, its last line says why."""
    try:
        done = subprocess.run(
            command, cwd=ROOT, stdin=subprocess.DEVNULL, capture_output=True, text=True, errors="replace"
        )
    except FileNotFoundError:
        raise BuildError(f"{what}: there is no {command[0]} on the PATH") from None
    except OSError as fault:
        raise BuildError(f"{what}: {command[0]}: {fault.strerror}") from None
    if done.returncode:
        why = one_line(done.stderr if done.stderr.strip() else done.stdout)
        raise BuildError(f"{what}: {' '.join(command[:2])}: {why}")
    return done.stdout


def kit() -> str:
    """The kit by which this tree is proved: the line of kit.txt."""
    return KIT.read_text().strip()


def refuse_another_kit(what: str) -> None:
    """What one kit proved is not to be called another's."""
    found = run(["rt", "version"], what).strip()
    if found != kit():
        raise BuildError(f"{what}: rt is {found}, and kit.txt names {kit()}: put that kit on the PATH")


def crates_used() -> dict[str, list[str]]:
    """The crates that each crate uses, by crates.txt. After a crate's name its line may have a word, as staticlib."""
    lines = (line.partition("#")[0].partition(":") for line in (ROOT / "crates.txt").read_text().splitlines())
    return {name.split()[0]: used.split() for name, _, used in lines if name.strip()}


def reached_from(crate: str) -> list[str]:
    """A crate and all that it uses, directly or through others. The kit's own are not counted."""
    used, waiting = crates_used(), [crate]
    reached: set[str] = set()
    while waiting:
        name = waiting.pop()
        if name in used and name not in reached:
            reached.add(name)
            waiting += used[name]
    return sorted(reached)


# A function of a source: at the start of a line or of an impl's line.
FUNCTION = re.compile(r"^ *(?:pub )?(?:const )?(?:extern \"C\" )?fn \w+", re.M)


def functions_of(crate: str) -> int:
    """How many functions the sources of a crate write. rt builds only a crate of which it proved each."""
    return sum(len(FUNCTION.findall(path.read_text())) for path in (CRATES / crate / "src").rglob("*.rt"))


class Progress:
    """How far rt is with some crates: on a terminal one line that is rewritten, else a line for each crate. rt prints a
    section for each crate as soon as it is done with it; where there was nothing to prove, the section is empty, or
    says what it began with."""

    SECTION = re.compile(r"^== (\w+)\n", re.MULTILINE)
    PROVED = re.compile(r"^logic=proved .*\n\Z", re.MULTILINE)
    KEPT = re.compile(r"(?:rt: \w+: begins with .*\n)*\Z")

    def __init__(self, crates: Iterable[str], say: Say) -> None:
        self.crates, self.say = frozenset(crates), say
        self.told: list[str] = []
        self.shown = False
        self.on_terminal = sys.stderr is not None and sys.stderr.isatty()

    def proved(self) -> Iterator[str]:
        """The crates that the log says are proved, in its order."""
        _, *sections = self.SECTION.split(read_log())
        for at in range(0, len(sections), 2):
            name, said = sections[at : at + 2]
            # The last section may not be whole yet.
            if self.PROVED.search(said) or self.KEPT.match(said) and at + 2 < len(sections):
                yield name

    def show(self) -> None:
        """Says what is new."""
        for crate in self.proved():
            if crate in self.crates and crate not in self.told:
                self.told.append(crate)
                line = f"[{len(self.told)}/{len(self.crates)}] proved {crate}"
                if self.on_terminal:
                    self.shown = True
                    write_stderr(f"\r{line}\x1b[K")
                else:
                    self.say(line)

    def end(self) -> None:
        if self.shown:
            self.shown = False
            write_stderr("\r\x1b[K")


def write_stderr(text: str) -> None:
    """Writes to standard error, if it can be written."""
    if sys.stderr is not None:
        with contextlib.suppress(OSError, ValueError):
            sys.stderr.write(text)
            sys.stderr.flush()


def read_log() -> str:
    return LOG.read_text(errors="replace")


# A line that says that something failed: the prover's, rt's, or one of a program that rt calls.
ERROR = re.compile(
    r"(?:^|: )error\b|\bNOT PROVED\b|: (?:not proved|no proof)\b|^note: \S+: it is not proved"
    r"|: (?:No such file or directory|Permission denied|No space left on device|Read-only file system|not found)$"
)
LONGEST = 240


# A place in a file of the crate that rt speaks of.
IN_CRATE = re.compile(r"^(note: )?(?:\./)?(?=(?:src|specs|proofs)/)")


def first_error(said: str, crate: str) -> str:
    """The first line that says what failed, of this crate or of those that rt has a section for, with paths from the
    top of this tree; where none does, the last line."""
    found = ""
    for line in map(str.strip, said.splitlines()):
        crate = line.removeprefix("== ") if line.startswith("== ") else crate
        if ERROR.search(line):
            found = IN_CRATE.sub(lambda at: f"{at[1] or ''}crates/{crate}/", line)
            break
    found = (found or one_line(said)).replace(f"{ROOT}/", "")
    return found if len(found) <= LONGEST else f"{found[:LONGEST]}..."


def at_a_time() -> int:
    """How many crates rt proves at a time: one on each processor, or fewer if RT_JOBS or the memory says so. A check
    takes up to 2 GB."""
    jobs, processors = os.environ.get("RT_JOBS", ""), len(os.sched_getaffinity(0))
    if jobs.isdecimal():
        return max(min(int(jobs), processors), 1)
    free = re.search(r"^MemAvailable: +(\d+) kB", pathlib.Path("/proc/meminfo").read_text(), re.M)
    return max(min(int(free[1]) // 2_000_000, processors), 1) if free else 1


def run_rt(words: Sequence[str], crate: str, what: str, progress: Progress, lock: IO[str]) -> None:
    """Runs rt in a crate's folder. It holds the lock too, so that no other build begins while it runs on after this
    process was killed."""
    with open(LOG, "ab") as log:
        began = log.tell()
        process = subprocess.Popen(
            ["rt", *words],
            cwd=CRATES / crate,
            stdin=subprocess.DEVNULL,
            stdout=log,
            stderr=subprocess.STDOUT,
            pass_fds=[lock.fileno()],
        )
        try:
            while process.poll() is None:
                progress.show()
                with contextlib.suppress(subprocess.TimeoutExpired):
                    process.wait(0.2)
            progress.show()
        except BaseException:
            process.terminate()
            process.wait()
            raise
        finally:
            progress.end()
    if process.returncode:
        said = LOG.read_bytes()[began:].decode(errors="replace")
        asked = " ".join(word for word in words if word.isalpha())
        raise BuildError(f"{what}: rt {asked}: {first_error(said, crate)} ({LOG.relative_to(ROOT)} has all of it)")


def put(product: Proved, what: str) -> None:
    """Copies what rt left of a product to its place, whole."""
    if not product.left.is_file():
        raise BuildError(f"{what}: rt left no {product.left.relative_to(ROOT)}")
    product.path.parent.mkdir(parents=True, exist_ok=True)
    new = product.path.with_name(f"{product.path.name}.new")
    shutil.copy(product.left, new)
    os.replace(new, product.path)


def prove(products: Sequence[Proved], say: Say, lock: IO[str]) -> None:
    """Has rt prove and build products, and writes their records."""
    what = f"{named(products)} cannot be built"
    refuse_another_kit(what)
    say(f"proving and building, some minutes the first time; {LOG.relative_to(ROOT)} is its log")
    LOG.write_bytes(b"")
    progress = Progress({crate for product in products for crate in reached_from(product.crate)}, say)
    for product in products:
        record_of(product.path).unlink(missing_ok=True)
        # All below it and the crate itself, several at a time; then the product, over what that kept.
        run_rt(["all", "check", "--jobs", str(at_a_time())], product.crate, what, progress, lock)
        product.left.unlink(missing_ok=True)
        run_rt([product.command, *EVERYWHERE], product.crate, what, progress, lock)
        put(product, what)
        functions = {crate: functions_of(crate) for crate in reached_from(product.crate)}
        write_record(product.path, sources_hash(), kit=kit(), functions=functions)


def named(products: Sequence[Proved]) -> str:
    return " and ".join(product.called for product in products)


@contextlib.contextmanager
def build_lock(products: Sequence[Proved], say: Say) -> Iterator[IO[str]]:
    """Holds the lock of this tree's build, and waits where another build holds it. The file says which that is."""
    TARGET.mkdir(exist_ok=True)
    with open(LOCK, "a+") as lock:
        try:
            fcntl.flock(lock, fcntl.LOCK_EX | fcntl.LOCK_NB)
        except BlockingIOError:
            lock.seek(0)
            holder = lock.readline().strip() or "another process builds here"
            say(f"{holder}: waiting for it; {LOG.relative_to(ROOT)} is its log")
            fcntl.flock(lock, fcntl.LOCK_EX)
            # What stands here may have changed meanwhile.
            sources_hash.cache_clear()
        lock.truncate(0)
        lock.write(f"process {os.getpid()} builds {named(products)} here\n")
        lock.flush()
        yield lock


def out_of_date(products: Iterable[Proved]) -> list[Proved]:
    """The products that are not there or are of other sources."""
    return [product for product in products if not is_current(product.path, sources_hash())]


def have_proved(products: Sequence[Proved], say: Say) -> None:
    """Has those products proved and built that are of other sources than what stands here, all in one build."""
    try:
        if not out_of_date(products):
            return
        with build_lock(products, say) as lock:
            left = out_of_date(products)
            if left:
                prove(left, say, lock)
    except OSError as fault:
        mend = "; build in a clone that you can write" if fault.errno in (errno.EACCES, errno.EROFS) else ""
        raise BuildError(f"{named(products)} cannot be built: {fault.filename}: {fault.strerror}{mend}") from None


# Linking.

NOT_LINKED = "the shared object cannot be linked"


def link(library: pathlib.Path, folder: str | pathlib.Path) -> pathlib.Path:
    """Links a library's shared object in a folder."""
    linked = pathlib.Path(folder) / SHARED.name
    run([str(LINKER), str(library), str(linked)], NOT_LINKED)
    return linked


def have_shared(say: Say) -> pathlib.Path:
    """The path of the shared object of this tree's library. It is put in place whole."""
    have_proved([LIBRARY], say)
    try:
        made_of = hash_of((LIBRARY.path, *LINKED_BY), [os.environ.get("CC") or "gcc"])
        if not is_current(SHARED, made_of):
            SHARED.parent.mkdir(parents=True, exist_ok=True)
            with tempfile.TemporaryDirectory(dir=SHARED.parent) as folder:
                os.replace(link(LIBRARY.path, folder), SHARED)
            write_record(SHARED, made_of)
    except OSError as fault:
        raise BuildError(f"{NOT_LINKED}: {fault.filename or SHARED}: {fault.strerror}") from None
    return SHARED


# What rt builds for each product that can be asked for.
PRODUCTS = {"library": LIBRARY, "desk": DESK, "shared": LIBRARY}


def main(arguments: list[str]) -> int:
    command, *names = arguments

    def say(line: str) -> None:
        write_stderr(f"{command}: {line}\n")

    try:
        have_proved(list(dict.fromkeys(PRODUCTS[name] for name in names)), say)
        if "shared" in names:
            have_shared(say)
    except BuildError as fault:
        say(str(fault))
        return 2
    except KeyboardInterrupt:
        return 130
    return 0


if __name__ == "__main__":
    sys.exit(main(sys.argv[1:]))
