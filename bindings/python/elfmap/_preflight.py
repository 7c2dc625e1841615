"""elfmap-lint --link: before a link, whether its files link; and where the program may be another
one than that of ld.

The verdict is that of the engine of `elfmap link`. If it refuses the files, each of them is also
checked by itself, so that not only the first refusal is found.
"""

from __future__ import annotations

import argparse
import os
from collections.abc import Iterator, Sequence
from contextlib import ExitStack
from typing import NamedTuple, Optional

from elfmap import NotLinked, Refused, TooLong
from elfmap._checks import TOO_LONG_AS_OBJECT, Checks, Fault
from elfmap._commands import number_of
from elfmap._findings import BadWord, Finding, Report, Rule, Unread
from elfmap._hints import hints
from elfmap._link_hints import link_hints
from elfmap._link_map import MOST_FILES, Link, Options, Refusal
from elfmap._link_places import NO_ENTRY, OF_SECTIONS, OF_SYMBOLS
from elfmap._link_warnings import Warned, Warnings, lto_warnings
from elfmap._link_words import (
    EXECUTABLE_TOO_LONG,
    MISMATCH,
    OF_ONE_FILE,
    OF_OPTIONS,
    Linked,
    link_words,
)
from elfmap._map_lines import LinkMap
from elfmap._rule_files import read_rules
from elfmap._rules import LINK_RULES, WARNINGS
from elfmap._sources import LONGEST, Source, Unreadable, opened, reason_of, standard_input
from elfmap._words import LONGEST_NAME, MOST_LETTERS, Words, explain, printable, reason

_BASE = 0x400000
_PAGE = 0x1000
_OF_JSON = ("jsonl", "sarif")
_STANDARD_INPUT = b"-"
# Where a file has its byte order, its machine and its flags.
_IDENTITY = ((5, 1), (18, 2), (48, 4))


def add_options(parser: argparse.ArgumentParser) -> None:
    """The options of a link."""
    add = parser.add_argument
    add(
        "--link",
        action="store_true",
        help="check whether the PATHs, in this order, link, and where `ld` makes another program",
    )
    add("--rules", metavar="FILE", help="with --link: the file of relocation rules")
    add("--entry", metavar="NAME", help="with --link: the name of the entry point")
    add("--base", metavar="B", help=f"with --link: the first address (default: {_BASE:#x})")
    add("--page", metavar="P", help=f"with --link: the size of a page (default: {_PAGE:#x})")


def preflight(options: argparse.Namespace) -> Optional[Preflight]:
    """The preflight that is asked for, or none. Raises BadWord where its words are wrong."""
    if options.link:
        return Preflight(options)
    for name in ("rules", "entry", "base", "page"):
        if getattr(options, name) is not None:
            raise BadWord(f"--{name} needs --link")
    return None


def _number(option: str, word: Optional[str], default: int) -> int:
    """A number as `elfmap link` reads it."""
    if word is None:
        return default
    number = number_of(word)
    if number is None:
        raise BadWord(f"{option} needs a decimal number below 2^64, or 0x and at most 16 digits")
    return number


class _File(NamedTuple):
    """A file of the link."""

    path: bytes
    source: Source
    content: bytes
    linked: Linked


class Preflight:
    """Looks at the files of a link."""

    def __init__(self, options: argparse.Namespace) -> None:
        if options.rules is None:
            raise BadWord("--link needs --rules FILE")
        self._rules_path = os.fsencode(options.rules)
        self._most_letters = LONGEST_NAME if options.format in _OF_JSON else MOST_LETTERS
        self._lost = ""
        entry = None if options.entry is None else os.fsencode(options.entry)
        base = _number("--base", options.base, _BASE)
        page = _number("--page", options.page, _PAGE)
        self._options = Options(self._rules(), base, page, entry)
        line = Link([], self._options._replace(entry=None)).bad_line()
        if line:
            raise BadWord(f"{printable(self._rules_path)}: line {line} is no rule")
        self._files: list[_File] = []

    def _rules(self) -> bytes:
        """The text of rules; if it can't be read, `_lost` says why."""
        try:
            with open(self._rules_path, "rb") as it:
                return it.read(LONGEST)
        except OSError as fault:
            self._lost = reason_of(fault)
        return b""

    def report(self, paths: Sequence[bytes]) -> Report:
        """What is found in these files. Raises BadWord where they are none or too many."""
        if not 0 < len(paths) <= MOST_FILES:
            raise BadWord(f"a link has 1 to {MOST_FILES} files, and not {len(paths)}")
        report = Report()
        if self._lost:
            report.unreadable.append(Unread(self._rules_path, self._lost))
        with ExitStack() as stack:
            self._files = list(self._opened(paths, stack, report))
            if report.unreadable:
                return report
            report.checked = len(self._files)
            report.names = [it.path for it in self._files]
            try:
                self._check(report)
            except Unreadable as fault:
                report.unreadable.append(Unread(paths[0], fault.reason))
            except MemoryError:
                report.unreadable.append(Unread(paths[0], "there is no memory for the link"))
        return report

    def _opened(self, paths: Sequence[bytes], stack: ExitStack, report: Report) -> Iterator[_File]:
        for path in paths:
            try:
                is_named = path != _STANDARD_INPUT
                source = stack.enter_context(opened(path)) if is_named else standard_input()
                content = source[:LONGEST]
            except Unreadable as fault:
                report.unreadable.append(Unread(path, fault.reason))
                continue
            linked = Linked(os.fsdecode(path), Words(content, self._most_letters))
            yield _File(path, source, content, linked)

    @property
    def _linked(self) -> list[Linked]:
        return [it.linked for it in self._files]

    def _check(self, report: Report) -> None:
        link = Link([it.content for it in self._files], self._options)
        refusal = link.refusal()
        report.links = refusal is None
        if refusal:
            report.findings += self._refused(refusal)
        report.findings += map(self._warning, lto_warnings(self._linked))
        found = link.map()
        if found:
            report.findings += map(self._warning, self._warnings(found))

    def _warnings(self, found: LinkMap) -> Iterator[Warned]:
        rules = read_rules(self._options.rules.decode("ascii"))
        contents = [it.content for it in self._files]
        return Warnings(self._linked, contents, found, rules, self._options.entry).all()

    # ---- Refusals

    def _refused(self, refusal: Refusal) -> list[Finding]:
        """Why the files do not link, and what each of them breaks by itself."""
        if isinstance(refusal, TooLong):
            limit = EXECUTABLE_TOO_LONG
            return [self._finding(0, Rule(True, 0), 0, limit.name, limit.message)]
        if isinstance(refusal, NotLinked):
            place = refusal.file, refusal.index, refusal.entry
            first = self._of_link(refusal.rule, *place)
            least = refusal.rule
        else:
            assert isinstance(refusal, Refused)
            first = self._of_file(refusal.file, refusal.rule, refusal.offset)
            least = 0
        found = {(refusal.file, first.rule, first.offset): first}
        checks = Checks(tables=False, objects=True)
        for position, file in enumerate(self._files):
            for it in checks.faults(file.source):
                # The rules of the link before the first one that is broken are kept by all files.
                # How long an object is by itself does not matter.
                is_kept = it.is_of_link and it.rule < least
                if not is_kept and it.rule != TOO_LONG_AS_OBJECT:
                    own = self._own(position, it)
                    found.setdefault((position, own.rule, own.offset), own)
        return list(found.values())

    def _own(self, position: int, fault: Fault) -> Finding:
        if not fault.is_of_link:
            return self._of_file(position, fault.rule, fault.at)
        linked = self._files[position].linked
        return self._of_link(fault.rule, position, *linked.position_at(fault.rule, fault.at))

    def _of_file(self, position: int, rule: int, at: int) -> Finding:
        it = self._files[position]
        words = it.linked.words
        told = explain(words, rule, at)
        causes = hints(words, os.fsdecode(it.path), rule, at)
        kind = Rule(False, rule)
        message = "; ".join((told.message, *causes))
        return self._finding(position, kind, at, kind.table[rule][0], message, told.sections)

    def _of_link(self, rule: int, position: int, index: int, entry: int) -> Finding:
        name, _, advice = LINK_RULES[rule]
        place = self._place_words(rule, position, index, entry)
        causes = link_hints(self._linked, rule, position, index, entry)
        message = "; ".join((place, reason(rule, LINK_RULES), *causes, advice))
        at, sections = self._place(rule, position, index, entry)
        return self._finding(position, Rule(True, rule), at, name, message, sections)

    def _place_words(self, rule: int, position: int, index: int, entry: int) -> str:
        if rule == NO_ENTRY:
            name = printable(self._options.entry or b"", self._most_letters) or "(no name)"
            return f"the entry point {name}"
        if rule in OF_ONE_FILE:
            linked = self._files[position].linked
            own = linked.section(index) if rule in OF_SECTIONS else index + 1
            return linked.own_words(rule, own)
        return link_words(self._linked, rule, position, index, entry)

    def _place(self, rule: int, position: int, index: int, entry: int) -> tuple[int, list[int]]:
        """Where in the file the link is refused, and which sections that is about."""
        linked = self._files[position].linked
        words = linked.words
        if rule in OF_OPTIONS:
            return 0, []
        if rule == MISMATCH:
            first = self._files[0].linked.words
            other = (
                at for at, width in _IDENTITY if words.number(at, width) != first.number(at, width)
            )
            return next(other, 0), []
        at = linked.place(rule, index, entry)
        if rule in OF_SYMBOLS:
            return at, [linked.symbols]
        own = linked.section(index)
        return at, [own] if rule in OF_SECTIONS else [own, words.section(own, "sh_info")]

    # ---- Findings

    def _warning(self, it: Warned) -> Finding:
        name, _, advice = WARNINGS[it.number]
        message = "; ".join((it.words, reason(it.number, WARNINGS), it.advice or advice))
        rule = Rule(False, it.number, True)
        return self._finding(it.file, rule, it.at, name, message, it.sections)

    def _finding(
        self,
        position: int,
        rule: Rule,
        at: int,
        name: str,
        message: str,
        sections: Sequence[int] = (),
    ) -> Finding:
        it = self._files[position]
        names = tuple(map(it.linked.words.section_name, sections))
        return Finding(it.path, at, rule, name, message, names, it.path, it.source.start)
