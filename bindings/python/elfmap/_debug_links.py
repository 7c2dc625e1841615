"""Debug files that another file of the same run names in its section `.gnu_debuglink`.

The section has the name of the debug file, a zero byte, zeros up to a multiple of 4, and the CRC-32
of all its bytes. A file of debug information without code is known by this alone.
"""

from __future__ import annotations

import os
import zlib
from collections.abc import Iterable
from typing import Optional

from elfmap._deviations import SEGMENT_PAST_END
from elfmap._findings import Finding, Report
from elfmap._sources import Source, Unreadable, opened
from elfmap._words import NOBITS, Words

_SECTION = b".gnu_debuglink"
_LONGEST = 4096
_PIECE = 1 << 20


def link_of(source: Source) -> Optional[tuple[bytes, int]]:
    """The name of the debug file that an ELF file names, and its CRC-32; None if it names none."""
    words = Words(source)
    for _, name, kind, _, _, start, size, *_ in words.headers():
        is_link = words.name(words.names, name, len(_SECTION) + 1) == _SECTION
        if is_link and kind != NOBITS and size <= _LONGEST:
            own = words.data[start : start + size].partition(b"\0")[0]
            return (own, words.number(start + size - 4, 4)) if size >= 8 else None
    return None


def named_files(report: Report) -> list[bytes]:
    """The files of a report with a segment past the end that another file names as its debug file,
    each once. One in a package or an archive is not searched for."""
    sums: dict[bytes, set[int]] = {}
    for name, number in report.debug_links:
        sums.setdefault(name, set()).add(number)
    paths = dict.fromkeys(it.file for it in report.findings if _may_be_named(it))
    return [it for it in paths if _sum_in(it, sums.get(os.path.basename(it), ()))]


def _may_be_named(finding: Finding) -> bool:
    is_past_end = not finding.rule.is_of_link and finding.rule.number == SEGMENT_PAST_END
    return is_past_end and finding.path == finding.file and finding.start == 0


def _sum_in(path: bytes, sums: Iterable[int]) -> bool:
    wanted = set(sums)
    if not wanted:
        return False
    found = 0
    try:
        with opened(path) as source:
            for at in range(0, len(source), _PIECE):
                found = zlib.crc32(source[at : at + _PIECE], found)
    except Unreadable:
        return False
    return found in wanted


def replace(report: Report, again: Report) -> None:
    """Puts what was found by a second check of some files in place of what was found first."""
    paths = set(again.names)
    report.findings = [it for it in report.findings if it.path not in paths] + again.findings
    report.known += again.known
    report.suppressed += again.suppressed
    report.unreadable += again.unreadable
