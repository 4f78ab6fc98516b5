#!/usr/bin/env python3
"""build_usage.py writes what the table of lta's commands, tools/lta/commands.py, gives besides the help: the manual
page docs/man/lta.1 and bash's completion, tools/lta_completion.sh. tests/usage says when that is due.
"""

from __future__ import annotations

import pathlib
import re
import sys
import textwrap
from typing import Iterator

import generated
from lta import commands, usage
from lta.commands import Command

ROOT = pathlib.Path(__file__).resolve().parent.parent
WIDTH = 100
MADE_BY = "tools/build_usage.py writes this file from tools/lta/commands.py."


# The manual page.

# The words that stand for something else.
NAMES = {"COMMAND", "OPTION"}.union(
    *(re.findall("[A-Z]+", command.operands) for command in commands.COMMANDS),
    (option.value for command in commands.COMMANDS for option in command.options if option.value),
)


def marked(text: str) -> str:
    """Words as roff has them: flags bold, what stands for something else in italics."""
    text = " ".join(text.split()).replace("\\", "\\e")
    text = re.sub(r"(?<![\w-])--?[a-z][a-z-]*", lambda flag: rf"\fB{flag[0]}\fR".replace("-", r"\-"), text)
    text = re.sub(r"(?<!\S)-(?!\w)", r"\\-", text)
    return re.sub(rf"\b(X(?=\.[a-z])|(?:{'|'.join(sorted(NAMES))})\b)", r"\\fI\1\\fR", text)


def paragraph(text: str) -> Iterator[str]:
    """Lines of roff text. One that begins as a request would is protected."""
    for line in textwrap.wrap(marked(text), WIDTH, break_long_words=False, break_on_hyphens=False):
        yield rf"\&{line}" if line[0] in ".'" else line


def term(name: str, words: str) -> Iterator[str]:
    yield ".TP"
    yield rf"\fB{name}\fR" if name.isdigit() or "_" in name else marked(name)
    yield from paragraph(sentence(words))


def sentence(words: str) -> str:
    """Words of a list as a sentence."""
    return f"{words[0].upper()}{words[1:]}."


def synopsis(command: Command) -> Iterator[str]:
    first, *parts = usage.usage(command)
    yield f".B {first}"
    yield from paragraph(" ".join(parts)) if parts else ()


def command_section(command: Command) -> Iterator[str]:
    yield f".SS {command.name}"
    for text in command.description:
        yield from paragraph(text)
        yield ".PP"
    yield from synopsis(command)
    for option in command.options:
        yield from term(option.shown, option.words)
    yield ".PP"
    yield "Examples:" if len(command.examples) > 1 else "Example:"
    yield ".PP"
    yield ".nf"
    yield ".RS"
    yield from (line.replace("-", r"\-") for line in command.examples)
    yield ".RE"
    yield ".fi"
    yield ".PP"
    yield "Status:"
    for number, words in command.statuses.items():
        yield from term(str(number), words)


def manual() -> str:
    """The manual page. A release fills in what stands between @."""
    taking = [command.name for command in commands.COMMANDS if command.takes_hours]
    lines = [
        '.TH LTA 1 "@DATE@" "Mbirukaze @VERSION@" "User Commands"',
        rf".\" {MADE_BY}",
        ".SH NAME",
        rf"lta \- {commands.PURPOSE}",
        ".SH SYNOPSIS",
        ".B lta",
        *paragraph("COMMAND [FILE...] [OPTION...]"),
        ".br",
        r".B lta \-\-version",
        ".SH DESCRIPTION",
        ".B lta",
        "is for testers and analysts.",
        *paragraph(commands.PROVED),
        ".SH COMMANDS",
        *(line for command in commands.COMMANDS for line in command_section(command)),
        ".SH HOURS",
        *paragraph(f"A FILE of {', '.join(taking[:-1])} and {taking[-1]} is one of these:"),
        *(line for name, words in commands.FILES for line in term(name, words)),
        *(line for note in commands.FILES_NOTES for line in (".PP", *paragraph(note))),
        ".SH EXIT STATUS",
        *(line for number, words in commands.STATUSES.items() for line in term(str(number), words)),
        ".SH ENVIRONMENT",
        *(line for name, words in commands.ENVIRONMENT.items() for line in term(name, words)),
        ".SH NOTES",
        *paragraph(
            """lta needs Linux on x86-64, the GNU C library, version @GLIBC@ or newer, and Python 3.9 or newer. From
            Python the same answers come from import lta, with the folder lib/mbirukaze of the installation on
            PYTHONPATH."""
        ),
        ".SH SEE ALSO",
        ".BR desk (1)",
    ]
    return "\n".join(lines) + "\n"


# Completion.

COMPLETION = """\
# shellcheck shell=bash
# Completes the command line of lta in bash. {made_by}
# In a release bash finds it by itself; in the repository: . tools/lta_completion.sh

_lta() {{
    local word=${{COMP_WORDS[COMP_CWORD]}} before=${{COMP_WORDS[COMP_CWORD - 1]}} words=''
    if ((COMP_CWORD == 1)); then
        words='{names} --help --version'
    elif [[ ${{COMP_WORDS[1]}} == help ]]; then
        words='{names} text'
    else
        case ${{COMP_WORDS[1]}} in
{options}
        esac
        # Operands, and the values of most options, are names of files, which bash completes.
        [[ $word == -* ]] || words=''
        case "${{COMP_WORDS[1]}} $before" in
{values}
        esac
    fi
    mapfile -t COMPREPLY < <(compgen -W "$words" -- "$word")
}}
complete -o bashdefault -o default -F _lta lta
"""


def completion() -> str:
    """The script that bash loads to complete lta's command line."""
    values, options = [], []
    for command in commands.COMMANDS:
        flags = " ".join([*(option.flag for option in command.options), "--help"])
        options.append(f"            {command.name}) words='{flags}' ;;")
        named = [f"'{command.name} {option.flag}'" for option in command.options if option.value and not option.choices]
        if named:
            values.append(f"            {' | '.join(named)}) words='' ;;")
        for option in command.options:
            if option.choices:
                values.append(f"            '{command.name} {option.flag}') words='{' '.join(option.choices)}' ;;")
    names = " ".join(commands.BY_NAME)
    return COMPLETION.format(made_by=MADE_BY, names=names, values="\n".join(values), options="\n".join(options))


FILES = {
    ROOT / "docs" / "man" / "lta.1": manual,
    ROOT / "tools" / "lta_completion.sh": completion,
}


if __name__ == "__main__":
    sys.exit(generated.run(FILES, __doc__, sys.argv[1:]))
