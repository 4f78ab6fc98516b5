"""lta page: one self-contained page of an hour, or of many with an overview. It asks for nothing from elsewhere, runs
no script, and the same input gives the same bytes. Verdicts, totals, prices and the shortfalls of an accepted hour are
the library's; what is drawn next to them is computed here, as the page says.
"""

from __future__ import annotations

import os
import pathlib
from collections.abc import Callable, Sequence
from dataclasses import replace

from . import amounts, drawing, library, page_day
from .inputs import UNREAD, Hashed, Input, InputError
from .page_hour import answer_words, hour_body, verdict
from .page_judged import Judged, judged_hour
from .page_markup import element, folded, text
from .results import Result

MOST_HOURS = 1000
MOST_NAMED = 12  # hours of a page up to which each order and link has a name where it is pointed at
MOST_INPUTS = 6  # files whose hashes are not folded
STYLE = pathlib.Path(__file__).with_name("page.css")
# Whose the answers are, by whether the library belongs to the command.
WHOSE = {
    True: "the proved library's",
    False: "those of a library that does not belong to this command, of which nothing is proved",
}
POLICY = "default-src 'none'; style-src 'unsafe-inline'"


# Which build, and which files.


def foreign_words() -> str:
    """Above all, where the library is not the one that belongs to the command."""
    words = "✗ The library does not belong to this command: nothing is proved of its answers."
    return "" if library.identity()["library_belongs"] else element("p", words, "bad-text")


def inputs_list(inputs: Sequence[Hashed]) -> str:
    """The files that were read, with their hashes."""
    rows = "".join(element("li", text(f"{read.file}: SHA-256 {read.sha256}")) for read in inputs)
    made = element("ul", rows)
    if len(inputs) <= MOST_INPUTS:
        return made if rows else ""
    return folded(f"{amounts.counted(len(inputs), 'file')} read, with SHA-256", made)


def footer(inputs: Sequence[Hashed], judged_at: str) -> str:
    """Where the answers come from, which build answered, and for which files."""
    identity = library.identity()
    answers = "Verdict, totals, zone prices and the shortfalls of an accepted hour"
    whose = WHOSE[bool(identity["library_belongs"])]
    words = f"{answers} are {whose}. All else here is computed next to it and is not proved."
    build = f"lta {identity['version']}; library SHA-256 {identity['library_sha256']}"
    at = element("p", text(f"Judged at {judged_at}")) if judged_at else ""
    return element("footer", element("p", words) + element("p", text(build)) + at + inputs_list(inputs))


# Pages.


def whole(title: str, body: str, hours: Sequence[Judged], judged_at: str) -> str:
    """The page with its head and foot."""
    head = '<meta charset="utf-8">\n<meta name="viewport" content="width=device-width, initial-scale=1">\n'
    head += f'<meta http-equiv="Content-Security-Policy" content="{POLICY}">\n{element("title", text(title))}\n'
    head += element("style", "\n" + STYLE.read_text(encoding="utf-8"))
    # A file that several hours name, as a margin sheet, is listed once.
    inputs = list(dict.fromkeys(read for one in hours for read in one.inputs))
    main = element("main", "\n" + foreign_words() + body + footer(inputs, judged_at) + "\n")
    made = element("head", f"\n{head}\n") + "\n" + element("body", f"\n{drawing.defined()}{main}\n")
    return "<!DOCTYPE html>\n" + element("html", f"\n{made}\n", lang="en") + "\n"


def page_of_one(one: Judged, judged_at: str = "") -> str:
    title = f"{answer_words(one.judgement)}: {one.name}"
    return whole(title, verdict(one, "h1") + hour_body(one, "h2", True), [one], judged_at)


def page_of_many(title: str, hours: Sequence[Judged], unread: Sequence[str], judged_at: str = "") -> str:
    body = element("div", page_day.overview(title, hours, unread), "overview")
    back = element("p", element("a", "↑ all hours", href=f"#{page_day.TOP}"), "back")
    for place, one in enumerate(hours):
        shown = verdict(one, "h2") + hour_body(one, "h3", len(hours) <= MOST_NAMED) + back
        kind = "hour accepted" if one.accepted else "hour refused"
        body += element("article", shown, kind, id=f"hour-{place}") + "\n"
    return whole(f"{page_day.count_words(hours, unread)}: {title}", body, hours, judged_at)


def page(
    files: Sequence[str],
    sources: Sequence[Input],
    complain: Callable[[InputError], object] = lambda fault: None,
    judged_at: str = "",
    told: Callable[[Result], object] = lambda result: None,
) -> str:
    """The page of what a command line named. An hour that cannot be read is named on a page of many, and complain is
    told; alone it ends the command. The time of judging is on the page only where it is given. Of each hour that was
    read told has the result, under the name that the command line gave it.
    """

    def judged(source: Input, folder: str | None = None) -> Judged:
        one = judged_hour(source, folder)
        told(replace(one.rows[-1], file=source.name, way=""))
        return one

    if len(sources) == 1 and (sources[0].kind == UNREAD or not os.path.isdir(files[0])):
        return page_of_one(judged(sources[0]), judged_at)
    hours: list[Judged] = []
    unread: list[str] = []
    folder = files[0] if len(files) == 1 and os.path.isdir(files[0]) else None
    for source in sources:
        try:
            hours.append(judged(source, folder))
        except InputError as fault:
            unread.append(str(fault))
            complain(fault)
    return page_of_many(" ".join(files), hours, unread, judged_at)
