"""The declarations of a crate's specs/ and proofs/, its functions, and which of them may rest on which.

antt shuts every definition: a declaration sees the clauses of another only if it unfolds them (a line `unfolding`, an
`unfold .. in`, an `unfolding(..)` before a function), or if that other is an abbrev, a record or a data type. It sees
the statement of a law that it cites. A word that is the name of a declaration in scope counts as citing it, so this
finds more than there is and never less.
"""

from __future__ import annotations

import functools
import pathlib
import re
from collections.abc import Iterable

MODIFIERS = {"pub", "abbrev", "unfoldable", "axiom", "data", "record", "ruleset"}
# What is seen through wherever it is cited.
OPEN = {"abbrev", "data", "record", "ruleset"}
WORD = re.compile(r"[^\s(){}\[\],;]+")
# What a function's own folder in proofs/ has; the other files there have theorems, and so have these rooms of it.
PROOF = ("Invariants.antt", "Answers.antt", "Proof.antt")
ROOMS = {"Promised", "Steps", "Worked"}


class Declaration:
    """A declaration that stands in a file or in a module of it, with what hangs under it: its words, the names of what
    it declares, and the names that it unfolds."""

    def __init__(self, file: str, name: str, modifiers: set[str], module_words: Iterable[str]) -> None:
        self.file, self.name, self.open = file, name, bool(OPEN & modifiers)
        self.lines: list[str] = []
        self.unfolds: set[str] = set()
        self.names, self.words = {name}, set(module_words)

    def take(self, line: str, names: Iterable[str]) -> None:
        self.lines.append(line)
        self.names.update(names)
        for word in WORD.findall(line.partition(" -- ")[0]):
            self.words.update((word, *word.split(".")))
        if line.lstrip().startswith("unfolding "):
            self.unfolds.update(name.rpartition(".")[2] for name in line.split()[1:])
        for unfolded in re.findall(r"\bunfold ((?:\S+ )+?)in\b", line):
            self.unfolds.update(name.rpartition(".")[2] for name in unfolded.split())
        for unfolded in re.findall(r"\bunfolding\(([^)]*)\)", line):
            self.unfolds.update(name.strip().rpartition(":")[2] for name in unfolded.split(","))


def is_of_a_function(file: str) -> bool:
    """Whether a file of a crate is the proof of a function, and not one of theorems."""
    part, *inside = file.split("/")
    return part == "proofs" and inside[-1] in PROOF and inside[0] not in ROOMS


def words_of(line: str) -> tuple[set[str], list[str]]:
    """The modifiers at the start of a line, and its other words."""
    words = line.split()
    first = next((at for at, word in enumerate(words) if word not in MODIFIERS), len(words))
    return set(words[:first]), words[first:]


def declarations_of(file: str, text: str) -> list[Declaration]:
    found: list[Declaration] = []
    modules: list[tuple[int, set[str]]] = []
    open_at = None
    for line in text.splitlines():
        indent, (modifiers, words) = len(line) - len(line.lstrip()), words_of(line)
        if not words or words[0].startswith("--") or words[0] in ("use", "mod"):
            continue
        declares = words[1:2] == [":"] or bool(modifiers & {"data", "record", "ruleset"})
        if words[0] == "module" or declares and (open_at is None or indent <= open_at):
            modules = [(at, named) for at, named in modules if at < indent]
            open_at = None
        if words[0] == "module":
            modules.append((indent, set(WORD.findall(line))))
        elif declares and open_at is None:
            found.append(Declaration(file, words[0], modifiers, set().union(*(named for _, named in modules))))
            open_at = indent
        if open_at is not None:
            found[-1].take(line, words[:1] if declares else ())
    return found


FUNCTION = re.compile(r"(?:pub )?(?:const )?(?:extern \"C\" )?fn (\w+)")


def functions_of(module: str, text: str) -> dict[str, list[str]]:
    """The lines of each function of a source, with the attributes before it, by its path. A method stands in an impl,
    whose lines are indented."""
    found: dict[str, list[str]] = {}
    lines: list[str] = []
    attributes: list[str] = []
    kind, end = "", None
    for line in text.splitlines():
        inner, indent = line.strip(), line[: len(line) - len(line.lstrip())]
        function = FUNCTION.match(inner)
        if end is None and function:
            lines = found[module + (kind if indent else "") + function[1]] = attributes
            end = indent + "}"
        elif not indent and inner.startswith("impl "):
            kind = inner.split()[1].partition("<")[0] + "::"
        attributes = [*attributes, inner] if end is None and inner.startswith("#[") else []
        if end is not None:
            lines.append(line.partition("//")[0])
            if line == end or function and inner.endswith("}"):
                end = None
    return found


def contract_of(lines: list[str]) -> list[str]:
    """A function's lines up to its body."""
    for at, line in enumerate(lines):
        if line.strip() == "{":
            return lines[:at]
    return lines


class Specs:
    """The declarations of all files of a crate's specs/ and of the theorems of its proofs/, and its functions."""

    def __init__(self, folder: pathlib.Path) -> None:
        self.folder = folder
        self.files: dict[str, list[Declaration]] = {}
        self.uses: dict[str, list[tuple[str, str]]] = {}
        self.by_name: dict[str, list[Declaration]] = {}
        for path in sorted([*folder.glob("specs/**/*.antt"), *folder.glob("proofs/**/*.antt")]):
            file, text = path.relative_to(folder).as_posix(), path.read_text()
            if is_of_a_function(file):
                continue
            self.files[file] = declarations_of(file, text)
            for one in self.files[file]:
                self.by_name.setdefault(one.name, []).append(one)
            self.uses[file] = self.uses_of(text)

    def uses_of(self, text: str) -> list[tuple[str, str]]:
        """The modules of specs/ and proofs/ that a text uses, each with the names that it takes of them."""
        uses = rf"^(?:pub |ghost )?use Rattle\.{self.folder.name}\.((?:specs|proofs)(?:\.\w+)*)(?:\.{{(.*)}})?(?: as .*)?;?$"
        return re.findall(uses, text, re.M)

    @functools.lru_cache(maxsize=None)
    def sources(self) -> tuple[dict[str, list[str]], list[tuple[str, str]]]:
        """The text of each function of src/ by its path, and the uses of all files."""
        texts: dict[str, list[str]] = {}
        uses: list[tuple[str, str]] = []
        for path in sorted(self.folder.glob("src/**/*.rt")):
            text, inside = path.read_text(), path.relative_to(self.folder / "src").with_suffix("").parts
            texts.update(functions_of("" if inside in (("lib",), ("main",)) else "::".join(inside) + "::", text))
            uses += self.uses_of(text)
        return texts, uses

    @functools.lru_cache(maxsize=None)
    def function(self, name: str) -> Declaration:
        """A function as a declaration: its own text and its proof, and the contract of each function of its crate that
        it names. All that src/ uses is in scope."""
        proof = f"proofs/{name.replace('::', '/')}"
        texts, uses = self.sources()
        one = Declaration(proof, name, set(), ())
        for line in texts.get(name, ()):
            one.take(line, ())
        called = {part for word in one.words for part in word.split("::")}
        for other, lines in texts.items():
            if other.rpartition("::")[2] in called:
                for line in contract_of(lines):
                    one.take(line, ())
        # Where there is no file, the prover closes each goal by a search that lists nothing.
        files = [self.folder / proof / file for file in PROOF]
        text = "".join(path.read_text() for path in files if path.is_file())
        for line in text.splitlines():
            if not line.startswith("use "):
                one.take(line, ())
        self.files[proof], self.uses[proof] = [], uses + self.uses_of(text)
        return one

    @functools.lru_cache(maxsize=None)
    def in_scope(self, file: str) -> list[Declaration]:
        """The declarations that a file can name: its own, and those that it uses, one by one or all of a file."""
        used = [
            one
            for module, names in self.uses[file]
            for one in self.files.get(module.replace(".", "/") + ".antt", ())
            if not names or one.names & set(names.split(", "))
        ]
        return self.files[file] + used

    @functools.lru_cache(maxsize=None)
    def cited(self, one: Declaration) -> list[Declaration]:
        """What a declaration names. A search takes hypotheses and the laws that it lists, so it needs no own rule."""
        return [
            other
            for other in self.in_scope(one.file)
            if other.names & one.words or "◌" in other.name and one.words.issuperset(filter(None, other.name.split("◌")))
        ]

    @functools.lru_cache(maxsize=None)
    def reached(self, one: Declaration) -> set[Declaration]:
        """What it names, directly or through others, and itself."""
        seen, todo = {one}, [one]
        while todo:
            for other in self.cited(todo.pop()):
                if other not in seen:
                    seen.add(other)
                    todo.append(other)
        return seen

    @functools.lru_cache(maxsize=None)
    def unfolded(self, one: Declaration) -> set[Declaration]:
        """What it unfolds, with what that unfolds in turn."""
        seen, todo = set(), [one]
        while todo:
            at = todo.pop()
            for name in at.unfolds:
                # By its whole path a line may name what is not in scope.
                for other in self.by_name.get(name, ()):
                    if other not in seen:
                        seen.add(other)
                        todo.append(other)
        return seen

    def named(self, file: str, name: str) -> Declaration | None:
        """The declaration of a file with this name, or in which it stands."""
        return next((one for one in self.files.get(file, ()) if name in one.names), None)

    def holding(self, file: str, text: str) -> list[tuple[Declaration, bool]]:
        """The declarations of a file in which a text stands, or all of the file where none has it; each with whether a
        change there is seen wherever it is cited."""
        inside = self.files.get(file, [])
        holding = [one for one in inside if any(text in line for line in one.lines)]
        return [(one, one.open or text in one.lines[0]) for one in holding] or [(one, True) for one in inside]

    def sees(self, one: Declaration, changed: Declaration, seen: bool) -> bool:
        """Whether one may see what changes: the clauses of another, or more where the change is seen."""
        if seen or changed is one:
            return changed in self.reached(one)
        return any(changed in self.unfolded(other) for other in self.reached(one) if other is one or other.open)

    def may_fail_by(self, one: Declaration, changed: Declaration, seen: bool) -> bool:
        """Whether one may not be admitted where another is changed: it, or a law that it cites, may see the change."""
        return any(self.sees(other, changed, seen) for other in self.reached(one))
