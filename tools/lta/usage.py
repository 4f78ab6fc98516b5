"""The parser and the help of lta, made of the table in commands.py."""

from __future__ import annotations

import argparse
import difflib
import functools
import textwrap
from typing import Iterable, NoReturn

from . import commands
from .commands import Command, Option

WIDTH = 80


class UsageError(Exception):
    """A command line that cannot be understood: one line, and status 2."""


class Parser(argparse.ArgumentParser):
    """The parser of one command, which has the options that its line of the table has."""

    def error(self, message: str) -> NoReturn:
        message = message.replace("ignored explicit argument", "takes no value, and has")
        raise UsageError(f"{message}; {self.prog} --help explains")


class Once(argparse.Action):
    """Stores a value. argparse's own takes the last of several, and says nothing of the others."""

    def __call__(
        self,
        parser: argparse.ArgumentParser,
        namespace: argparse.Namespace,
        values: object,
        option_string: str | None = None,
    ) -> None:
        if getattr(namespace, self.dest) is not None:
            parser.error(f"{option_string}: given twice")
        setattr(namespace, self.dest, values)


def exclusive(option: Option, command: Command) -> str:
    """The name of the group in which an option excludes the others; empty where it excludes none."""
    if option.apart:
        return option.apart
    alike = [other for other in command.options if other.dest == option.dest]
    return option.dest if len(alike) > 1 else ""


def groups_of(command: Command) -> list[list[Option]]:
    """The options of a command in order, those together that exclude each other."""
    groups: dict[str, list[Option]] = {}
    for option in command.options:
        groups.setdefault(exclusive(option, command) or option.flag, []).append(option)
    return list(groups.values())


def add_option(taker: argparse._ActionsContainer, option: Option) -> None:
    if not option.value:
        default = False if option.sets is True else None
        taker.add_argument(option.flag, dest=option.dest, action="store_const", const=option.sets, default=default)
    else:
        action: str | type[argparse.Action] = "append" if option.many else Once
        taker.add_argument(option.flag, dest=option.dest, action=action, choices=option.choices or None)


@functools.lru_cache(maxsize=None)
def parser(command: Command) -> Parser:
    """The parser of a command. Each sets options.command, options.files and options.way."""
    taker = Parser(prog=f"lta {command.name}", add_help=False, allow_abbrev=False)
    taker.set_defaults(command=command.name, way=None)
    taker.add_argument("files", nargs="*")
    for group in groups_of(command):
        apart = taker.add_mutually_exclusive_group() if len(group) > 1 else taker
        for option in group:
            add_option(apart, option)
    return taker


def nearest(word: str, known: Iterable[str]) -> str:
    """What may have been meant by a word that is not known, as the end of a message."""
    found = difflib.get_close_matches(word, list(known), n=1)
    return f"; did you mean {found[0]}?" if found else ""


def command_named(word: str) -> Command:
    """The command of that name."""
    if word in commands.BY_NAME:
        return commands.BY_NAME[word]
    raise UsageError(f"{word or repr('')}: no such command{nearest(word, commands.BY_NAME) or '; lta help lists them'}")


def parsed(arguments: list[str]) -> argparse.Namespace:
    """The command and its options. That operands are missing is said last, so that a wrong option is named first."""
    if not arguments:
        raise UsageError("name a command; lta help lists them")
    if arguments[0].startswith("--") and len(arguments[0]) > 2:
        near = nearest(arguments[0], ("--help", "--version"))
        raise UsageError(f"{arguments[0]}: no such option{near or '; lta help lists the commands'}")
    command = command_named(arguments[0])
    taker = parser(command)
    options, unknown = taker.parse_known_args(arguments[1:])
    flags = [option.flag for option in command.options]
    for word in unknown:
        near = nearest(word.partition("=")[0], [*flags, "--help"])
        raise UsageError(f"{word}: no such option{near or f'; lta {command.name} --help lists them'}")
    if command.needs_operands and not options.files:
        taker.error(f"{command.operands} is missing")
    if command.most is not None and len(options.files) > command.most:
        taker.error(f"{options.files[command.most]}: one argument too many")
    refuse_standard_input_twice(options)
    return options


def refuse_standard_input_twice(options: argparse.Namespace) -> None:
    """Whoever reads it second would find it empty."""
    named = [*options.files, *(getattr(options, name, None) for name in commands.INPUT_OPTIONS)]
    if named.count("-") > 1:
        raise UsageError("-: standard input is named twice")


def with_help(arguments: list[str]) -> list[str]:
    """The arguments with --help and --version as the commands that they stand for."""
    before = arguments[: arguments.index("--")] if "--" in arguments else arguments
    if arguments and arguments[0] == "--version":
        return ["version", *arguments[1:]]
    if "--help" in before or "-h" in before:
        return ["help", *(word for word in arguments[:1] if word in commands.BY_NAME)]
    return arguments


# Help.


def filled(text: str, indent: str = "", first: str | None = None) -> str:
    """A paragraph, its blanks and line breaks as one blank each, wrapped."""
    return textwrap.fill(
        " ".join(text.split()),
        WIDTH,
        initial_indent=indent if first is None else first,
        subsequent_indent=indent,
        break_long_words=False,
        break_on_hyphens=False,
    )


def listed(rows: Iterable[tuple[str, str]], most: int = 22) -> str:
    """Rows of a term and its words, the words in a column of their own."""
    rows = list(rows)
    width = min(max(len(term) for term, _ in rows), most)
    lines = []
    for term, words in rows:
        if len(term) <= width:
            lines.append(filled(words, " " * (width + 4), f"  {term.ljust(width)}  "))
        else:
            lines += [f"  {term}", filled(words, " " * (width + 4))]
    return "\n".join(lines)


def usage(command: Command) -> list[str]:
    """The parts of a command's usage: itself, its operands, and its options by groups."""
    options = [f"[{' | '.join(option.shown for option in group)}]" for group in groups_of(command)]
    return [f"lta {command.name}", *([command.operands] if command.operands else []), *options]


def usage_lines(command: Command) -> str:
    """The usage of a command, wrapped between its parts."""
    first, *parts = usage(command)
    lines, indent = [f"Usage: {first}"], " " * len(f"Usage: {first}")
    for part in parts:
        if len(lines[-1]) + 1 + len(part) > WIDTH:
            lines.append(indent)
        lines[-1] += f" {part}"
    return "\n".join(lines)


def status_list(statuses: dict[int, str]) -> str:
    return "Status:\n" + listed((str(number), words) for number, words in statuses.items())


def command_help(command: Command) -> str:
    """The help of one command."""
    parts = [usage_lines(command), *(filled(paragraph) for paragraph in command.description)]
    if command.takes_hours:
        parts.append("A FILE is one of these:\n" + listed(commands.FILES))
        parts += [filled(note) for note in commands.FILES_NOTES]
    if command.options:
        parts.append("Options:\n" + listed((option.shown, option.words) for option in command.options))
    parts.append(
        ("Example:\n" if len(command.examples) == 1 else "Examples:\n")
        + "\n".join(f"  {line}" for line in command.examples)
    )
    parts.append(status_list(command.statuses))
    return "\n\n".join(parts) + "\n"


def overview() -> str:
    """The help of lta itself, on one screen."""
    parts = [
        filled(f"lta: {commands.PURPOSE}."),
        "Usage: lta COMMAND [FILE...] [OPTION...]",
        listed((command.name, command.summary) for command in commands.COMMANDS),
        filled(
            """lta COMMAND --help explains a command, with an example. lta help text explains the text of an hour.
            lta --version prints which build answers."""
        ),
        filled(commands.PROVED),
        status_list(commands.STATUSES),
    ]
    return "\n\n".join(parts) + "\n"
