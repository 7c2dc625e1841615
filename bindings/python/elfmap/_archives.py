"""The members of `.a` archives: those of GNU, thin ones and those of BSD.

A member has a header of 60 bytes, at an even offset:

    name 16, time 12, user 6, group 6, mode 8, size 10, and "`" with a line feed

GNU closes a name by `/`, and keeps a long one in the member `//`, where `/N` names it
by its offset. BSD puts a long name before the content, where `#1/N` gives its length.
A thin archive has the paths of its members, and nothing else of them.
"""

from __future__ import annotations

import os
import re
from collections.abc import Iterator
from contextlib import contextmanager
from typing import NamedTuple, Optional

from elfmap._sources import Source, Unreadable, opened

MAGIC = b"!<arch>\n"
THIN_MAGIC = b"!<thin>\n"
_HEADER = 60
# So many bytes of a long name are read.
_LONGEST_NAME = 4096
_LONG_NAME = re.compile(rb"/(\d+)(?::(\d+))?$")
_BSD_NAME = re.compile(rb"#1/(\d+)$")
_INDEXES = (b"/", b"/SYM64/")
_BSD_INDEX = b"__.SYMDEF"


class Member(NamedTuple):
    """A member, and where its bytes are: in the archive, or in the file `path`.

    `header` is where its own header is. Of a member in another archive that a thin one
    names, `origin` is where the header is there. `label` is the name, or for the second one
    of a name `name#2`: no two members have the same.
    """

    name: bytes
    header: int
    start: int
    size: int
    path: Optional[bytes] = None
    origin: Optional[int] = None
    label: bytes = b""


class Damaged(Unreadable):
    """The archive can't be followed from an offset on."""

    def __init__(self, at: int, reason: str) -> None:
        super().__init__(f"the archive is damaged at offset {at:#x}: {reason}")


class Labels:
    """Labels for the members of an archive, of which no two are the same: the name, or for the
    second one of a name `name#2`."""

    def __init__(self) -> None:
        self._given: set[bytes] = set()
        # How many members of a name there are, if there is more than one.
        self._counts: dict[bytes, int] = {}

    def of(self, name: bytes) -> bytes:
        label = name
        while label in self._given:
            self._counts[name] = self._counts.get(name, 1) + 1
            label = b"%s#%d" % (name, self._counts[name])
        self._given.add(label)
        return label


class _Archive:
    def __init__(self, source: Source, path: bytes) -> None:
        self.source = source
        self.is_thin = source[:8] == THIN_MAGIC
        self._folder = os.path.dirname(path)
        self._names: Optional[tuple[int, int]] = None
        self._labels = Labels()

    def members(self) -> Iterator[Member]:
        at = 8
        while at < len(self.source):
            name, size = self._header(at)
            is_special = name in _INDEXES or name == b"//"
            end = at + _HEADER + (size if is_special or not self.is_thin else 0)
            if end > len(self.source):
                raise Damaged(at, f"the member {_shown(name)} ends past the end of the archive")
            if name == b"//":
                self._names = at + _HEADER, size
            elif not is_special:
                member = self._member(name, at, size)
                if not member.name.startswith(_BSD_INDEX):
                    yield member._replace(label=self._label(member))
            at = end + end % 2

    def _label(self, member: Member) -> bytes:
        # What names a member in another archive is told apart by the name there.
        return self._labels.of(member.name) if member.origin is None else member.name

    def _header(self, at: int) -> tuple[bytes, int]:
        header = self.source[at : at + _HEADER]
        size = header[48:58].rstrip()
        if len(header) < _HEADER:
            raise Damaged(at, "less than a member's header is left")
        if header[58:] != b"`\n" or not size.isdigit():
            raise Damaged(at, "there is no member's header")
        return header[:16].rstrip(b" "), int(size)

    def _member(self, name: bytes, at: int, size: int) -> Member:
        start = at + _HEADER
        long_name = _LONG_NAME.match(name)
        bsd_name = _BSD_NAME.match(name)
        if bsd_name and not self.is_thin:
            length = int(bsd_name[1])
            if length > size:
                raise Damaged(at, "the name is longer than the member")
            own = self.source[start : start + length].rstrip(b"\0")
            return Member(own, at, start + length, size - length)
        own = self._long_name(at, int(long_name[1])) if long_name else name.removesuffix(b"/")
        if not self.is_thin:
            return Member(own, at, start, size)
        origin = int(long_name[2]) if long_name and long_name[2] else None
        return Member(own, at, 0, size, os.path.join(self._folder, own), origin)

    def _long_name(self, at: int, position: int) -> bytes:
        start, size = self._names or (0, 0)
        if position >= size:
            raise Damaged(at, "there is no such long name")
        block = self.source[start + position : start + min(size, position + _LONGEST_NAME)]
        return block.partition(b"\n")[0].removesuffix(b"/")


def _shown(name: bytes) -> str:
    return ascii(name.decode("ascii", "backslashreplace"))


def members(source: Source, path: bytes) -> Iterator[Member]:
    """The members in their order. Raises Damaged after the last whole one."""
    return _Archive(source, path).members()


class Content(NamedTuple):
    """A file, or a member of an archive: the path to print, and its bytes in `file`, or a copy of
    bytes that are in the file in another form."""

    path: bytes
    file: bytes
    source: Source
    is_copy: bool = False


class Contents:
    """Opens the members of archives, also those that a thin one names in another archive.

    A thin archive may name any file. Unless all are followed, one that is outside of the
    directory of the archive is not opened. The members of the last archive that a thin one
    names are remembered.
    """

    def __init__(self, follows_all: bool = True) -> None:
        self._follows_all = follows_all
        self._path: Optional[bytes] = None
        self._members: dict[int, Member] = {}

    @contextmanager
    def opened(self, archive: bytes, source: Source, member: Member) -> Iterator[Content]:
        name = printed(archive, member)
        if member.path is None:
            own = Source(source.handle, source.start + member.start, member.size)
            yield Content(name, archive, own)
            return
        if not self._follows_all and not _is_below(member.path, archive):
            raise Unreadable("it is outside of the archive's directory; --follow-thin reads it")
        with opened(member.path) as file:
            if member.origin is None:
                yield Content(name, member.path, file)
                return
            inner = self._at(file, member.path, member.origin)
            with self.opened(member.path, file, inner) as content:
                yield content._replace(path=b"%s(%s(%s))" % (archive, member.name, inner.label))

    def _at(self, source: Source, path: bytes, origin: int) -> Member:
        """The member whose header is at the origin."""
        if self._path != path:
            self._path = path
            self._members = {}
            self._members.update((it.header, it) for it in members(source, path))
        found = self._members.get(origin)
        if not found or found.origin is not None:
            raise Damaged(origin, "there is no member that the thin archive names")
        return found


def _is_below(path: bytes, archive: bytes) -> bool:
    """Whether a path, with its symbolic links followed, is in the directory of an archive."""
    folder = os.path.realpath(os.path.dirname(archive) or b".")
    return os.path.join(os.path.realpath(path), b"").startswith(os.path.join(folder, b""))


def printed(archive: bytes, member: Member) -> bytes:
    """The path of a member, as `lib.a(member.o)`, or `lib.a(member.o#2)`."""
    return b"%s(%s)" % (archive, member.label)


# How a file begins that is checked, or whose members are.
MAGICS = (b"\x7fELF", MAGIC, THIN_MAGIC)


def is_archive(source: Source) -> bool:
    return source[:8] in (MAGIC, THIN_MAGIC)
