"""The results of lta judge as JUnit XML, which build servers read: a test for each hour."""

from __future__ import annotations

import xml.etree.ElementTree as ElementTree
from collections.abc import Callable, Sequence

from . import library, numbers
from .inputs import printable
from .results import Result

SUITE = "lta judge"


def added(test: ElementTree.Element, tag: str, result: Result, kind: str) -> None:
    """Says in a test why it is none that passed: in a word, in a line, and in a sentence."""
    element = ElementTree.SubElement(test, tag, message=printable(result.remark()), type=kind)
    element.text = printable(result.explanation or result.error)


def as_junit(results: Sequence[Result], good: Callable[[Result], bool]) -> bytes:
    """The whole file. An hour fails where `good` says so, and one that could not be read is an error."""
    unread = sum(result.judgement is None for result in results)
    failed = sum(result.judgement is not None and not good(result) for result in results)
    counts = {"tests": str(len(results)), "failures": str(failed), "errors": str(unread), "skipped": "0"}
    top = ElementTree.Element("testsuites", {"name": SUITE, **counts})
    suite = ElementTree.SubElement(top, "testsuite", {"name": SUITE, **counts})
    properties = ElementTree.SubElement(suite, "properties")
    for name, value in library.identity().items():
        ElementTree.SubElement(properties, "property", name=name, value=str(value))
    for result in results:
        test = ElementTree.SubElement(suite, "testcase", classname=SUITE, name=printable(result.name))
        if result.judgement is None:
            added(test, "error", result, "unread")
        elif not good(result):
            row = numbers.ROWS.get(result.judgement.number)
            added(test, "failure", result, row.name if row else str(result.judgement.number))
        if result.families:
            # Not a property: the schemas of some build servers allow none in a test.
            ElementTree.SubElement(test, "system-out").text = f"family list: {result.families}"
    ElementTree.indent(top, " ")
    text: str = ElementTree.tostring(top, encoding="unicode")
    return f"<?xml version='1.0' encoding='utf-8'?>\n{text}\n".encode()
