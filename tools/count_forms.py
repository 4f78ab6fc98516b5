#!/usr/bin/env python3
"""count_forms.py [COMMIT]: counts the older forms that docs/DESIGN-PASS.md speaks of, in crates/*/src and proofs.

Each line is a point of that page, how many places it has, and, with -v, where. Without a COMMIT the work tree is read.
"""
from __future__ import annotations

import re
import subprocess
import sys
from collections import defaultdict
from pathlib import Path

TOP = Path(__file__).resolve().parent.parent
Places = list[str]
BY_HAND = r'\bfn (?:exceeds|larger|smaller|differs|outside|below|either|min|max)\b'
REFUSAL = (
    r'\brefused(?:_at)?\((?:\d|OPENING)|\brefuse(?:_in)?\(.*FAULT|\boutcome\(\d|^\s*number: [1-9]\d*,'
)


def files(commit: str | None, ending: str) -> dict[str, str]:
    """The text of each file of the crates with this ending, by its path."""
    listed = ['git', 'ls-files'] if commit is None else ['git', 'ls-tree', '-r', '--name-only', commit]
    names = subprocess.run([*listed, 'crates'], cwd=TOP, check=True, capture_output=True, text=True).stdout.split('\n')
    wanted = [name for name in names if name.endswith(ending)]
    if commit is None:
        return {name: (TOP / name).read_text() for name in wanted if (TOP / name).exists()}
    texts = {}
    pipe = subprocess.PIPE
    with subprocess.Popen(['git', 'cat-file', '--batch'], cwd=TOP, stdin=pipe, stdout=pipe) as git:
        assert git.stdin is not None and git.stdout is not None
        for name in wanted:
            git.stdin.write(f'{commit}:{name}\n'.encode())
            git.stdin.flush()
            size = int(git.stdout.readline().split()[2])
            texts[name] = git.stdout.read(size + 1)[:-1].decode()
    return texts


def lines(texts: dict[str, str], pattern: str) -> Places:
    """The lines that have the pattern, comments aside."""
    found = []
    for name, text in texts.items():
        for number, line in enumerate(text.split('\n'), 1):
            if re.search(pattern, line.split('//')[0]):
                found.append(f'{name}:{number}: {line.strip()}')
    return found


def answers(texts: dict[str, str]) -> Places:
    """Enums with the shape of an Option or a Result: two variants, one of them bare or a refusal."""
    found = []
    for name, text in texts.items():
        for match in re.finditer(r'^(?:pub )?enum (\w+)[^{]*\{\n(.*?)^\}', text, re.M | re.S):
            variants = re.findall(r'^    (\w+)(\(.*\))?,', match[2], re.M)
            if len(variants) == 2 and any(payload for _, payload in variants):
                found.append(f'{name}: {match[1]}')
    return found


def functions(texts: dict[str, str]) -> list[tuple[str, str, str]]:
    """File, name and text of each function, without its contract; what a trait asks of each type is left out."""
    found = []
    for name, text in texts.items():
        text = re.sub(r'^impl\b[^{]* for .*?^}', '', text, flags=re.M | re.S)
        for match in re.finditer(r'^( *)(?:pub )?(?:extern "C" )?fn (\w+)(.*?)^\1\{\n(.*?)^\1\}', text, re.M | re.S):
            signature = re.split(r'\n\s*(?:requires|ensures)', match[3])[0]
            found.append((name, match[2], signature + '\n' + match[4]))
    return found


def twins(texts: dict[str, str]) -> Places:
    """Functions that are the same but for types, constants and numbers."""
    alike: dict[str, Places] = defaultdict(list)
    for name, function, text in functions(texts):
        shape = re.sub(r'\b[A-Z]\w*', 'T', re.sub(r'\b[ui](?:8|16|32|64|size)\b', 'T', re.sub(r'\b\d+\b', 'N', text)))
        alike[re.sub(r'\s+', ' ', shape)].append(f'{name}: {function}')
    return [place for group in alike.values() if len(group) > 1 for place in group]


def facts(texts: dict[str, str]) -> Places:
    """Facts that stand in a `requires` of three functions or more, each with the number of functions."""
    count: dict[str, int] = defaultdict(int)
    for text in texts.values():
        for fact in re.findall(r'requires [^{]*\{ (?:\w+ ≡ \w+ → )?([A-Z]\w+) ', text):
            count[fact] += 1
    return [f'{fact} in {number} functions' for fact, number in sorted(count.items()) if number >= 3]


def main() -> int:
    words = [word for word in sys.argv[1:] if word != '-v']
    commit = words[0] if words else None
    source, proofs = files(commit, '.rt'), files(commit, '.antt')
    rows = {
        '1 enums of the shape of Option or Result': answers(source),
        '1 flags with values beside them': lines(source, r'^    (?:pub )?\w+: (?:bool|Place|Option<usize>|Outcome),'),
        '1 refusals by their numbers': lines(source, REFUSAL),
        '2 functions that differ in a type, a size or a constant': twins(source),
        '3 loops that no `for` counts': lines(source, r'^\s*(?:while|loop)\b'),
        '4 casts by `as`': lines(source, r' as [ui](?:8|16|32|64|size)\b'),
        '4 order and equality by hand': lines(source, BY_HAND),
        '5 facts in the `requires` of three functions or more': facts(source),
        '6 arrays of a fixed length made in a body': lines(source, r'= \[.*; .*\];'),
        '7 choices by a letter or an enum without fields': lines(source, r'^\s*(?:b\'.\'|\w+::[A-Z]\w+) => '),
        '8 lines of answers': [
            name for name, text in proofs.items() if '/Answers.antt' in name for _ in text.split('\n')[:-1]
        ],
    }
    for row, places in rows.items():
        print(f'{len(places):6}  {row}')
        if '-v' in sys.argv and not row.startswith('8'):
            print(*(f'          {place}' for place in places), sep='\n')
    return 0


if __name__ == '__main__':
    sys.exit(main())
