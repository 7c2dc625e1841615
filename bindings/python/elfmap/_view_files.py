"""The files that the viewer is given: by themselves, in archives and packages, and below
directories."""

from __future__ import annotations

import os
from collections.abc import Iterator
from contextlib import ExitStack

from elfmap._archives import Content, Contents
from elfmap._commands import DONE, FOUND, UNREADABLE, complain
from elfmap._packages import Opener
from elfmap._sources import Source, Unreadable, opened, standard_input
from elfmap._view_image import View
from elfmap._words import one_line

PROGRAM = "elfmap-view"
_STANDARD_INPUT = b"-"
_MAGIC = b"\x7fELF"


class Reader:
    """Reads one file after another, and remembers how that ended."""

    def __init__(self) -> None:
        self._is_refused = False
        # How much could not be read.
        self._losses = 0

    def status(self) -> int:
        if self._losses:
            return UNREADABLE
        return FOUND if self._is_refused else DONE

    def lose(self, path: bytes, reason: str) -> None:
        """Says that something can't be read, and why."""
        self._losses += 1
        complain(PROGRAM, one_line(path) + f": {reason}".encode("utf-8", "backslashreplace"))

    def views(self, path: bytes, is_named: bool = True) -> Iterator[View]:
        """The file of a path, or all ELF files in an archive or a package; nothing that can't be
        read. A file that is not named may be no ELF file."""
        try:
            with ExitStack() as stack:
                for content in self._contents(path, is_named, stack):
                    view = View(content)
                    self._is_refused |= not view.faults.is_sound
                    yield view
        except Unreadable as fault:
            self.lose(path, fault.reason)
        except MemoryError:
            self.lose(path, "there is no memory for it")

    def _contents(self, path: bytes, is_named: bool, stack: ExitStack) -> Iterator[Content]:
        if path != _STANDARD_INPUT and path.endswith(b")") and not os.path.lexists(path):
            # Few commands name a member, or look below directories: the others start sooner.
            from elfmap.explain import Files

            words, file = stack.enter_context(Files()).words(path)
            assert isinstance(words.data, Source)
            yield Content(path, file, words.data)
            return
        is_input = path == _STANDARD_INPUT
        source = standard_input() if is_input else stack.enter_context(opened(path))
        leaves = Opener(Contents(), self.lose).leaves(path, source)
        stack.callback(leaves.close)
        before = self._losses
        has_any = not is_named
        for it in leaves:
            if it.path == path and is_named or it.source[:4] == _MAGIC:
                has_any = True
                yield it
        if not has_any and self._losses == before:
            raise Unreadable("it has no ELF file")

    def below(self, paths: list[bytes]) -> Iterator[View]:
        """The ELF files of files and directories."""
        from elfmap._findings import Globs, Report
        from elfmap._walk import Walk

        report = Report()
        for found in Walk(paths, Globs(()), report):
            yield from self.views(found.path, is_named=False)
        for lost in report.unreadable:
            self.lose(lost.path, lost.reason)
