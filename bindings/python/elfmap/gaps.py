"""elfmap-gaps: the longest gaps of ELF-64 files, directories and archives.

    elfmap-gaps [OPTIONS] PATH...

A gap is a run of bytes that is in no header, no table and no section. Each line has its
length, its file and place, the parts before and after it, and whether it has bytes that are
not zero. The longest gap comes first. The status is 0, 2 for a usage error, and 3 if a file
can't be read or is refused, or if a file that is named is no ELF file. The other files are
read all the same.
"""

from __future__ import annotations

import argparse
import heapq
import os
from collections.abc import Iterator, Sequence
from typing import NamedTuple, Optional

from elfmap import __version__, _declared
from elfmap._archives import Content
from elfmap._commands import DONE, UNREADABLE, USAGE, Parser, complain, run_script
from elfmap._findings import Globs, Report
from elfmap._formats import counted
from elfmap._inspect import Depth, Inspector
from elfmap._rules import RULES
from elfmap._sources import Source, Unreadable
from elfmap._walk import Walk
from elfmap._words import Words, one_line

PROGRAM = "elfmap-gaps"
_MOST = 20
_OWNERS = ("the header", "the section headers", "the program headers")
_STEP = 1 << 20


class Gap(NamedTuple):
    """A gap, in the order in which gaps are printed: the longest first."""

    less: int
    path: bytes
    start: int
    before: str
    after: str
    is_zeros: bool

    def line(self) -> bytes:
        end = self.start - self.less
        place = f"between {self.before} and {self.after}" if self.after else f"after {self.before}"
        bytes_ = "zeros" if self.is_zeros else "not only zeros"
        words = f": [{self.start:#x}, {end:#x}) {place}, {bytes_}\n"
        return b"%d " % -self.less + one_line(self.path) + words.encode("utf-8", "backslashreplace")


class Finder(Inspector):
    """Finds the gaps of one file after another, and keeps the longest of them."""

    def __init__(self, most: int, skips_named: bool) -> None:
        super().__init__(Depth(skips_named=skips_named))
        self._most = most
        self.longest: list[Gap] = []
        self.count = self.bytes = 0

    def _elf(self, it: Content) -> None:
        parts, fault = self._checks.parts(it.source)
        if fault:
            rule = f"{RULES[fault.rule][0]} ({fault.rule})"
            raise Unreadable(f"offset {fault.at:#x}: {rule}; elfmap-lint says more")
        words = Words(it.source)
        gaps = [position for position, part in enumerate(parts) if part.owner == _declared.GAP]
        own = [_gap(it, words, parts, position) for position in gaps]
        self.count += len(own)
        self.bytes -= sum(gap.less for gap in own)
        self.longest = heapq.nsmallest(self._most, [*self.longest, *own])


def _gap(it: Content, words: Words, parts: Sequence[_declared.Part], position: int) -> Gap:
    part = parts[position]
    after = _owner(words, parts[position + 1]) if position + 1 < len(parts) else ""
    is_zeros = not any(block.strip(b"\0") for block in _blocks(it.source, part.start, part.len))
    return Gap(-part.len, it.path, part.start, _owner(words, parts[position - 1]), after, is_zeros)


def _owner(words: Words, part: _declared.Part) -> str:
    if part.owner < len(_OWNERS):
        return _OWNERS[part.owner]
    index = part.owner - len(_OWNERS)
    return words.section_string(index) or f"section {index}"


def _blocks(source: Source, start: int, length: int) -> Iterator[bytes]:
    for at in range(start, start + length, _STEP):
        yield source[at : min(at + _STEP, start + length)]


def _parser() -> Parser:
    parser = Parser(
        prog=PROGRAM,
        description=(
            "Lists the longest gaps of ELF-64 files: bytes that are in no header, no table and no"
            " section."
        ),
        epilog=(
            "Status: 0 done, 2 usage, 3 something can't be read or is refused, or a PATH is no ELF"
            " file."
        ),
    )
    add = parser.add_argument
    add("--version", action="version", version=f"%(prog)s {__version__}")
    add("paths", metavar="PATH", nargs="*", help="a file, a directory, or an archive")
    add(
        "--exclude",
        metavar="GLOB",
        action="append",
        default=[],
        help="skip files and directories of such names",
    )
    add("--most", metavar="N", type=int, default=_MOST, help=f"print N gaps (default: {_MOST})")
    add(
        "--skip",
        action="store_true",
        help="skip a PATH that is empty or no ELF file too, as files of directories are skipped",
    )
    return parser


def _summary(finder: Finder, report: Report) -> str:
    gaps = counted(finder.count, "gap")
    files = counted(report.checked, "ELF file")
    words = f"{gaps} of {counted(finder.bytes, 'byte')} in {files}"
    counts = ((report.no_elf, "not ELF"), (report.class_32, "of class 32"))
    skipped = ", ".join(f"{count} {what}" for count, what in counts if count)
    return f"{words}; skipped: {skipped}" if skipped else words


def _usage_error(options: argparse.Namespace) -> str:
    """What is wrong with the words of the command; nothing if they are right."""
    if not options.paths:
        return "PATH is missing; see --help"
    return "--most needs a number from 0 on" if options.most < 0 else ""


def main(words: Optional[Sequence[str]] = None) -> int:
    """Runs the program, and returns its status."""
    options = _parser().in_any_order(words, "paths")
    wrong = _usage_error(options)
    if wrong:
        complain(PROGRAM, wrong.encode())
        return USAGE
    finder = Finder(options.most, options.skip)
    report = Report()
    paths = [os.fsencode(it) for it in options.paths]
    for found in Walk(paths, Globs(options.exclude), report, options.skip):
        report.add(finder.files([found.path]))
    report.sort()
    for lost in report.unreadable:
        complain(PROGRAM, one_line(lost.path) + b": " + lost.reason.encode())
    with open(1, "wb", closefd=False) as out:
        out.writelines(it.line() for it in finder.longest)
        out.write(f"{_summary(finder, report)}\n".encode())
    return UNREADABLE if report.unreadable else DONE


def script() -> None:
    """The console script."""
    run_script(PROGRAM, main)


if __name__ == "__main__":
    script()
