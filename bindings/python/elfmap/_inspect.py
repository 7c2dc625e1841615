"""Checks files by their paths, and each member of those that are archives."""

from __future__ import annotations

from collections.abc import Iterator
from contextlib import contextmanager
from typing import NamedTuple

from elfmap._archives import Content, Contents
from elfmap._checks import TOO_LONG_AS_OBJECT, Checks, Fault
from elfmap._debug_links import link_of
from elfmap._findings import NOWHERE, Damaged, Finding, Report, Rule, Unread
from elfmap._hints import producers
from elfmap._link_words import Linked, explain_alone
from elfmap._origin import Origin, origin_of
from elfmap._packages import MOST_UNPACKED, Opener
from elfmap._sources import Source, Unreadable, opened, standard_input
from elfmap._walk import Named, reason_of_foreign
from elfmap._words import MOST_LETTERS, OBJECT_TOO_LONG, Words, explain

_MAGIC = b"\x7fELF"
_CLASS_32 = 1


class Depth(NamedTuple):
    """How much of a file is checked, and what is reported: of each name in a sentence at most so
    many letters, and of sections also their names by themselves. Whether a file that is named may
    be no ELF file. Whether known deviations are findings, and whether segments of debug files may
    pass the end. How many bytes may come out of what is compressed in a file. Whether other files
    name all files as their debug files.
    """

    tables: bool = False
    objects: bool = False
    fails_class_32: bool = False
    keeps_names: bool = False
    follows_thin: bool = False
    most_letters: int = MOST_LETTERS
    names_sections: bool = True
    skips_named: bool = True
    is_strict: bool = True
    debug_files: bool = False
    most_unpacked: int = MOST_UNPACKED
    are_named_debug_files: bool = False


class Inspector:
    """Looks at one file after another, and puts what it finds into a report."""

    def __init__(self, depth: Depth) -> None:
        self._depth = depth
        how = depth.is_strict, depth.debug_files, depth.are_named_debug_files
        self._checks = Checks(depth.tables, depth.objects, *how)
        contents = Contents(depth.follows_thin)
        self._opener = Opener(contents, self._lose, depth.most_unpacked)
        self._report = Report()

    def files(self, paths: list[bytes]) -> Report:
        self._report = Report()
        for path in paths:
            with self._guarded(path), opened(path) as source:
                self._file(path, source, isinstance(path, Named))
        return self._report

    def standard_input(self, path: bytes) -> Report:
        """What standard input has, under this path."""
        self._report = Report()
        with self._guarded(path):
            self._file(path, standard_input(), True)
        return self._report

    @contextmanager
    def _guarded(self, path: bytes, is_opened: bool = False) -> Iterator[None]:
        """Whatever ends the look at a file, it goes on with the next one."""
        try:
            yield
        except Unreadable as fault:
            self._lose(path, fault.reason, is_opened)
        except MemoryError:
            self._lose(path, "there is no memory for it", False)

    def _lose(self, path: bytes, reason: str, is_content: bool = True) -> None:
        self._report.unreadable.append((Damaged if is_content else Unread)(path, reason))

    def _file(self, path: bytes, source: Source, is_named: bool) -> None:
        for it in self._opener.leaves(path, source):
            with self._guarded(it.path, True):
                is_wanted = is_named and it.path == path and not self._depth.skips_named
                if is_wanted and it.source[:4] != _MAGIC:
                    raise Unreadable(reason_of_foreign(len(it.source)))
                self._image(it)

    def _image(self, it: Content) -> None:
        head = it.source[:5]
        if head[:4] != _MAGIC:
            self._report.no_elf += 1
        elif head[4:] == bytes([_CLASS_32]) and not self._depth.fails_class_32:
            self._report.class_32 += 1
        else:
            self._elf(it)
            self._report.checked += 1

    def _elf(self, it: Content) -> None:
        faults = self._checks.faults(it.source)
        self._report.known += self._checks.known
        link = link_of(it.source) if self._depth.debug_files else None
        self._report.debug_links |= {link} if link else set()
        if self._depth.keeps_names:
            self._report.names.append(it.path)
        if not faults:
            return
        words = Words(it.source, self._depth.most_letters)
        origin = origin_of(words)
        found = [_finding(it, words, origin, fault, self._depth) for fault in faults]
        self._report.findings += found


def _finding(content: Content, words: Words, origin: Origin, fault: Fault, depth: Depth) -> Finding:
    path, file, source, is_copy = content
    start = NOWHERE if is_copy else source.start
    rule = Rule(fault.is_of_link, fault.rule)
    if fault.rule == TOO_LONG_AS_OBJECT:
        limit = OBJECT_TOO_LONG
        return Finding(path, 0, rule, limit.name, limit.message, (), file, start, origin)
    if fault.is_of_link:
        told = explain_alone(Linked("", words), fault.rule, fault.own)
    elif fault.reading:
        told = fault.reading.told(words, fault.rule, fault.table, depth.most_letters)
    else:
        told = explain(words, fault.rule, fault.at, fault.table)
    name = rule.table[rule.number][0]
    message = "; ".join((told.message, *producers(words, fault.rule, fault.at)))
    sections = tuple(map(words.section_name, told.sections)) if depth.names_sections else ()
    return Finding(path, fault.at, rule, name, message, sections, file, start, origin)
