"""What is in a file: the members of archives and packages, also where one is in another.

A package is a file that is compressed, or a tar, cpio, RPM or Debian file, by how it begins. It is
read once from its front to its end. A member that is an ELF file, an archive or a package is copied
into memory, one at a time; of any other one only the first bytes are read.
"""

from __future__ import annotations

import os
from collections.abc import Callable, Generator, Iterator
from contextlib import ExitStack, contextmanager
from typing import NamedTuple, Optional

from elfmap._archives import (
    MAGIC,
    MAGICS,
    THIN_MAGIC,
    Content,
    Contents,
    Labels,
    Member,
    members,
)
from elfmap._containers import BLOCK, Entry, entries, is_cpio, is_rpm, is_tar, pass_rpm_headers
from elfmap._sources import LONGEST, Source, Unreadable, reason_of
from elfmap._streams import Budget, Stream, compression, decompressed, plain

MOST_UNPACKED = 1 << 34
# So many archives and packages may be in one another.
_MOST_NESTED = 8
_PIECE = 1 << 20
_DEBIAN = b"debian-binary"
_DATA = b"data.tar"
# What is lost: its path, and why.
Lost = Callable[[bytes, str], object]


def is_package(head: bytes) -> bool:
    """Whether a file that begins so is compressed, or has members; an archive is no package."""
    return bool(compression(head)) or is_tar(head) or is_cpio(head) or is_rpm(head)


class Place(NamedTuple):
    """Where a content is: in a file, or in the member of these names, each in the one before."""

    file: bytes
    names: tuple[bytes, ...] = ()

    def below(self, name: bytes) -> Place:
        return Place(self.file, (*self.names, name))

    @property
    def printed(self) -> bytes:
        """The path of a member, as `lib.a(member.o)` or `a.deb(usr/lib/lib.a(member.o))`."""
        return b"(".join((self.file, *self.names)) + b")" * len(self.names)


class Opener:
    """Goes through what is in a file. What can't be read of it is lost, and the rest goes on."""

    def __init__(self, contents: Contents, lost: Lost, most: int = MOST_UNPACKED) -> None:
        self._contents = contents
        self._lost = lost
        self._most = most
        self._budget = Budget(most)

    def leaves(self, path: bytes, source: Source) -> Generator[Content, None, None]:
        """All that is no archive and no package: the file itself, or what is in it. A content is
        there until the next one is asked for."""
        self._budget = Budget(self._most)
        yield from self._guarded(Place(path), source)

    def _guarded(self, place: Place, source: Source, nested: int = 0) -> Iterator[Content]:
        try:
            if nested > _MOST_NESTED:
                raise Unreadable(f"more than {_MOST_NESTED} archives are in one another")
            yield from self._inner(place, source, nested)
        except Unreadable as fault:
            self._lost(place.printed, fault.reason)
        except OSError as fault:
            self._lost(place.printed, reason_of(fault))
        except MemoryError:
            self._lost(place.printed, "there is no memory for it")

    def _inner(self, place: Place, source: Source, nested: int) -> Iterator[Content]:
        head = source[:BLOCK]
        if is_package(head):
            yield from self._package(place, source, nested)
        elif head.startswith((MAGIC, THIN_MAGIC)):
            yield from self._archive(place, source, nested)
        else:
            yield Content(place.printed, place.file, source, bool(nested))

    def _package(self, place: Place, source: Source, nested: int) -> Iterator[Content]:
        labels = Labels()
        with _members_of(source, self._budget) as found:
            for it in found:
                own = place
                if it.name is not None:
                    name = it.name.removeprefix(b"./")
                    own = place.below(labels.of(name) if it.is_copied else name)
                if it.reason:
                    self._lost(own.printed, it.reason)
                else:
                    yield from self._guarded(own, it.source, nested + 1)

    def _archive(self, place: Place, source: Source, nested: int) -> Iterator[Content]:
        is_debian = False
        for member in members(source, place.file):
            is_debian |= member.name == _DEBIAN
            own = place.below(member.label)
            if is_debian and member.name.startswith(_DATA):
                yield from self._data(place, source, member, nested)
            elif place.names and member.path:
                self._lost(own.printed, "it is a member of a thin archive, which is in a package")
            else:
                yield from self._member(own, source, member, nested)

    def _data(self, place: Place, source: Source, member: Member, nested: int) -> Iterator[Content]:
        """The files of a Debian package, whose paths are those of the package's own members."""
        data = Source(source.handle, source.start + member.start, member.size)
        if not is_package(data[:BLOCK]):
            self._lost(place.below(member.label).printed, "it is compressed in no way known here")
        else:
            yield from self._guarded(place, data, nested + 1)

    def _member(self, own: Place, source: Source, member: Member, nested: int) -> Iterator[Content]:
        try:
            with self._contents.opened(own.file, source, member) as it:
                head = it.source[:BLOCK]
                if is_package(head) or head.startswith((MAGIC, THIN_MAGIC)):
                    yield from self._guarded(own, it.source, nested + 1)
                elif nested:
                    yield Content(own.printed, own.file, it.source, True)
                else:
                    yield it
        except Unreadable as fault:
            self._lost(own.printed, fault.reason)


def content_at(path: bytes, file: bytes, source: Source, stack: ExitStack) -> Optional[Content]:
    """What in a file has this path; none if nothing has. It is there until the stack ends."""
    lost: dict[bytes, str] = {}
    leaves = Opener(Contents(), lost.__setitem__).leaves(file, source)
    stack.callback(leaves.close)
    found = next((it for it in leaves if it.path == path), None)
    reason = lost.get(path) or lost.get(file)
    if not found and reason:
        raise Unreadable(reason)
    return found


class _Inner(NamedTuple):
    """A member of a package, or without a name what is compressed. Or why it can't be read. Only of
    one that is copied the source has all bytes."""

    name: Optional[bytes]
    source: Source
    is_copied: bool = False
    reason: str = ""


@contextmanager
def _members_of(source: Source, budget: Budget) -> Iterator[Iterator[_Inner]]:
    """What is in a package. Each is there until the next one is asked for."""
    stream = plain(source)
    with ExitStack() as stack:
        is_of_rpm = is_rpm(source[:4])
        if is_of_rpm:
            pass_rpm_headers(stream)
        kind = compression(stream.peek(BLOCK))
        if kind:
            stream = stack.enter_context(decompressed(stream, kind, budget))
        handle = os.memfd_create("what is in a package")
        stack.callback(os.close, handle)
        found = entries(stream)
        if found is not None:
            # They end at the end of the stream: there the sum of what is compressed is tested.
            yield (_copied(stream, it, handle) for it in found)
        elif is_of_rpm:
            raise Unreadable("the content of the RPM file is no cpio file")
        else:
            yield iter([_copied(stream, Entry(b"", LONGEST), handle)._replace(name=None)])


def _copied(stream: Stream, entry: Entry, handle: int) -> _Inner:
    """A member in memory: all of it, or only how it begins if that says that it is neither an ELF
    file nor an archive nor a package."""
    os.ftruncate(handle, 0)
    head = stream.peek(min(BLOCK, entry.size))
    size = os.pwrite(handle, head, 0)
    if len(head) < min(BLOCK, entry.size) < LONGEST and entry.size < LONGEST:
        raise Unreadable("it ends within a member")
    has_members = is_package(head) or head.startswith((MAGIC, THIN_MAGIC))
    if entry.reason or not has_members and not head.startswith(MAGICS):
        return _Inner(entry.name, Source(handle, 0, size), reason=entry.reason)
    most = min(entry.size, LONGEST)
    stream.skip(size)
    while size < most:
        piece = stream.read(min(_PIECE, most - size))
        if not piece:
            break
        size += os.pwrite(handle, piece, size)
    if size < entry.size < LONGEST:
        raise Unreadable("it ends within a member")
    reason = "it has members and is longer than 1 GiB" if has_members and size == LONGEST else ""
    return _Inner(entry.name, Source(handle, 0, size), True, reason)
