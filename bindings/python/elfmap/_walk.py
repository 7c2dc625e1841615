"""The files below folders, each once, and none that has to be waited for."""

from __future__ import annotations

import os
import stat
from collections.abc import Iterable, Iterator
from typing import NamedTuple

from elfmap._findings import Globs, Report, Unread
from elfmap._sources import reason_of

# A shorter file has no magic number.
_LEAST = 4
Identity = tuple[int, int]


class Named(bytes):
    """The path of a file that the user named, and that was not only found in a folder."""


class Found(NamedTuple):
    path: bytes
    size: int


def reason_of_foreign(size: int) -> str:
    """Why a file of so many bytes, which does not begin as an ELF file or an archive, is not
    checked."""
    kind = "neither an ELF file nor an archive" if size else "empty"
    return f"it is {kind}; --skip skips it"


class Walk:
    """Goes through files and folders, and counts what it passes by in a report.

    A symbolic link that is named is followed, one in a folder is not. Of hard links the
    path that sorts first is used. Only hard links, and what is named, are remembered: a
    folder may have any number of files. A file that is named has a path of type Named.
    Unless those are skipped, one that is too short for an ELF file is unreadable.
    """

    def __init__(
        self, names: Iterable[bytes], excluded: Globs, report: Report, skips_named: bool = True
    ) -> None:
        self._names = names
        self._skips_named = skips_named
        self._excluded = excluded
        self._report = report
        self._once: dict[Identity, Found] = {}
        self._named: set[Identity] = set()

    def __iter__(self) -> Iterator[Found]:
        folders = self._roots()
        while folders:
            for entry in self._entries(folders.pop()):
                if isinstance(entry, Found):
                    yield entry
                else:
                    folders.append(entry)
        yield from self._once.values()

    def _roots(self) -> list[bytes]:
        """The folders that are named; the files that are named are remembered."""
        folders = []
        for name in self._names:
            try:
                found = os.stat(name)
            except (OSError, ValueError) as fault:
                self._unreadable(name, fault)
                continue
            if self._excluded.match(name):
                continue
            if not stat.S_ISDIR(found.st_mode):
                self._root(name, found)
            elif _identity(found) not in self._named:
                self._named.add(_identity(found))
                folders.append(name)
        return folders[::-1]

    def _root(self, name: bytes, found: os.stat_result) -> None:
        if not stat.S_ISREG(found.st_mode):
            self._report.unreadable.append(Unread(name, "it is no regular file"))
        elif found.st_size < _LEAST and self._skips_named:
            self._report.no_elf += 1
        elif found.st_size < _LEAST:
            self._report.unreadable.append(Unread(name, reason_of_foreign(found.st_size)))
        else:
            self._named.add(_identity(found))
            self._remember(name, found)

    def _entries(self, folder: bytes) -> Iterator[Found | bytes]:
        """The files of a folder, and the paths of its folders."""
        try:
            with os.scandir(folder) as entries:
                for entry in entries:
                    yield from self._entry(entry)
        except OSError as fault:
            self._unreadable(folder, fault)

    def _entry(self, entry: os.DirEntry[bytes]) -> Iterator[Found | bytes]:
        if self._excluded.match(entry.path):
            return
        try:
            found = entry.stat(follow_symlinks=False)
        except OSError as fault:
            self._unreadable(entry.path, fault)
            return
        if stat.S_ISLNK(found.st_mode):
            return
        if stat.S_ISDIR(found.st_mode):
            if _identity(found) not in self._named:
                yield entry.path
        elif not stat.S_ISREG(found.st_mode):
            self._report.irregular += 1
        elif found.st_size < _LEAST:
            self._report.no_elf += 1
        elif found.st_nlink > 1 or _identity(found) in self._named:
            self._remember(entry.path, found)
        else:
            yield Found(entry.path, found.st_size)

    def _remember(self, path: bytes, found: os.stat_result) -> None:
        key = _identity(found)
        file = Found(path, found.st_size)
        first = min(file, self._once.get(key, file))
        # It is a named one also by another path, which only a folder has.
        self._once[key] = Found(Named(first.path), first.size) if key in self._named else first

    def _unreadable(self, path: bytes, fault: Exception) -> None:
        reason = reason_of(fault) if isinstance(fault, OSError) else str(fault)
        self._report.unreadable.append(Unread(path, reason))


def _identity(found: os.stat_result) -> Identity:
    return found.st_dev, found.st_ino


def chunks(found: Iterable[Found], most_files: int, most_bytes: int) -> Iterator[list[bytes]]:
    """Paths in lists of so many, or of files of so many bytes together."""
    paths: list[bytes] = []
    size = 0
    for it in found:
        paths.append(it.path)
        size += it.size
        if len(paths) >= most_files or size >= most_bytes:
            yield paths
            paths = []
            size = 0
    if paths:
        yield paths
