#!/usr/bin/env python3
"""Spells the repository's own definitions and variables in snake case: `caseOf` becomes `case_of`.

usage: tools/respell_names.py [--check]    at the top of the repository

It turns whole words in specs/, proofs/, src/, the edits of must-fail/, and in comments. A dash in the name of a lemma
or a field joins two words, as in the library's own names, and stays. A name whose new spelling meets another word of
some file stays everywhere, and is listed. --check writes nothing. docs/PORT.md says when it ran.
"""

from __future__ import annotations

import collections
import os
import re
import sys
from collections.abc import Iterator

WORD = re.compile(r"[^\s(){}.;,@\"«»\[\]]+")
COMMENT = re.compile(r"(?<![^\s(){}.;,@\"«»])--[^\n]*|//[^\n]*")
SPAN = re.compile(r"`[^`\n]+`")
USE = re.compile(r"(?m)^(?:pub )?use ([^\s{]+)(?:\{([^}]*)\})?(?: as (\S+))?$")
CAMEL = re.compile(r"^[a-z][a-z0-9]*(?:_[a-z0-9]+)*[A-Z]")
# A lemma or a field that lost its dash to the kit's script, and would now meet a definition: it gets its dash back.
DASHED = "by_length first_field from_in gap_at last_digits link_start not_finite share_in to_in"
BACK = {name: name.replace("_", "-") for name in DASHED.split()}
# The other word is a step of a path, or a function of src/, which no clause names.
APART = set(
    "asksRow bookSurplus branchShortfall caseHeader exceedsParent fieldOf firstPriceOutside i32At isDigit leadsBack"
    " linkShortfall linkStart linkTotal orderShortfall pairCount shadowPrice u16At zonePrice".split()
)


def snake(name: str) -> str:
    return re.sub(r"(?<=[a-z0-9])([A-Z])", lambda m: "_" + m[1].lower(), name).replace("-", "_")


def files(root: str) -> Iterator[str]:
    for top, folders, names in os.walk(os.path.join(root, "crates")):
        folders[:] = sorted(folder for folder in folders if folder != "out")
        for name in sorted(names):
            if name.endswith((".antt", ".rt", ".edit")):
                yield os.path.join(top, name)


def is_proof(path: str) -> bool:
    return re.search(r"/proofs/.*(Proof|Answers|Invariants)\.antt$", path.replace(os.sep, "/")) is not None


def turns(name: str) -> bool:
    return name.isascii() and re.match(r"^[a-z]\w*'*$", name) is not None and CAMEL.match(name) is not None


def code_of(text: str) -> str:
    return COMMENT.sub(" ", text)


def with_dashes(path: str, text: str) -> str:
    """The text with the dashes that BACK gives."""
    imported = {name for start, items, _ in USE.findall(text) if start.startswith("Rattle.") for name in WORD.findall(items)}

    def one(match: re.Match[str]) -> str:
        word = match[0]
        own = not is_proof(path) or word in imported or text[: match.start()].endswith("placed.")
        return BACK[word] if word in BACK and own else word

    return WORD.sub(one, text)


def names_of(texts: dict[str, str]) -> dict[str, str]:
    """The names that turn: the library has no word in camel case, so each such word of specs/ is the repository's."""
    words = {
        word for path, text in texts.items() if "/specs/" in path and path.endswith(".antt") for word in WORD.findall(code_of(text))
    }
    return {word: snake(word) for word in words if turns(word)}


def meetings(texts: dict[str, str], table: dict[str, str]) -> dict[str, tuple[str, str]]:
    """The names that would meet another word, each with a file where it does and its new spelling."""
    found: dict[str, tuple[str, str]] = {}
    for path, text in texts.items():
        if path.endswith(".edit"):
            continue
        code = code_of(text)
        words = set(WORD.findall(code))
        own = words & set(table)
        if path.endswith(".rt"):
            # the name of a function of src/ is no word of a clause
            words = set(re.findall(r"\w+(?![\w(])", re.sub(r"\bfn \w+|\w+::|::\w+", " ", code)))
        new = collections.Counter(table[word] for word in own)
        for word in own - APART:
            if table[word] in words - own or new[table[word]] > 1:
                found.setdefault(word, (path, table[word]))
    return found


class Speller:
    def __init__(self, table: dict[str, str]) -> None:
        self.table = table

    def words(self, text: str) -> str:
        return WORD.sub(lambda m: self.table.get(m[0], m[0]), text)

    def spans(self, text: str) -> str:
        return SPAN.sub(lambda m: "`" + self.words(m[0][1:-1]) + "`", text)

    def comment(self, text: str) -> str:
        return self.spans(WORD.sub(lambda m: self.table[m[0]] if CAMEL.match(m[0]) and m[0] in self.table else m[0], text))

    def source(self, text: str) -> str:
        parts, at = [], 0
        for match in COMMENT.finditer(text):
            parts += [self.words(text[at : match.start()]), self.comment(match[0])]
            at = match.end()
        return "".join([*parts, self.words(text[at:])])

    def edit(self, text: str) -> str:
        lines = []
        for line in text.split("\n"):
            if line.startswith(("old: ", "new: ", "refused: ")):
                line = self.words(line)
            elif line.startswith("#"):
                line = self.spans(line)
            lines.append(line)
        return "\n".join(lines)


def main() -> None:
    before = {}
    for path in files("."):
        with open(path, encoding="utf-8") as file:
            before[path] = file.read()
    texts = {path: with_dashes(path, text) if path.endswith(".antt") else text for path, text in before.items()}
    table = names_of(texts)
    staying = meetings(texts, table)
    for word, (path, new) in sorted(staying.items()):
        print(f"stays: {word}: {path} has {new} already")
        del table[word]
    speller, count = Speller(table), 0
    for path, text in texts.items():
        spelled = speller.edit(text) if path.endswith(".edit") else speller.source(text)
        if spelled != before[path]:
            count += 1
            if "--check" not in sys.argv:
                with open(path, "w", encoding="utf-8") as file:
                    file.write(spelled)
    print(f"{len(table)} names, {count} files, {len(staying)} names stay")


if __name__ == "__main__":
    main()
