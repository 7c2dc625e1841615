"""Colours of the report for people, on a terminal."""

from __future__ import annotations

import os
from collections.abc import Iterator
from typing import TYPE_CHECKING

from elfmap._words import one_line

if TYPE_CHECKING:
    from elfmap._findings import Report

CHOICES = ("auto", "always", "never")
_BOLD = "\x1b[1m"
_RED = "\x1b[31m"
_GREEN = "\x1b[32m"
_PLAIN = "\x1b[0m"


def are_wanted(choice: str) -> bool:
    """Whether standard output is a terminal that shows colours, and no user forbids them
    (https://no-color.org); or what the option says."""
    if choice != "auto":
        return choice == "always"
    is_forbidden = os.environ.get("NO_COLOR") or os.environ.get("TERM") == "dumb"
    return not is_forbidden and os.isatty(1)


def text(report: Report) -> Iterator[bytes]:
    """The report as text, with the path and the rule of each finding in colours."""
    # elfmap-view has colours, and no report.
    from elfmap._formats import sentence, summary_words

    for it in report.findings:
        words = sentence(it).replace(it.name, f"{_RED}{it.name}{_PLAIN}", 1)
        line = f"{_BOLD}{os.fsdecode(one_line(it.path))}{_PLAIN}: {words}\n"
        yield line.encode("utf-8", "backslashreplace")
    is_clean = not report.findings and not report.unreadable
    color = _GREEN if is_clean else _RED
    yield f"{color}{summary_words(report)}{_PLAIN}\n".encode("utf-8", "backslashreplace")
