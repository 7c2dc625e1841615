"""Files whose bytes are read where they are asked for, and the memory that holds them.

No file is mapped. A mapped file that another process cuts short ends this one by SIGBUS,
whatever its size. A read of it returns too few bytes, which is an error like any other.
"""

from __future__ import annotations

import mmap
import os
import stat
from collections.abc import Callable, Iterator
from contextlib import contextmanager
from typing import Optional

from elfmap import _library
from elfmap.constants import LONGEST_FILE

# The longest file that keeps rule 1, and one byte more.
LONGEST = LONGEST_FILE + 1
# How much is read at once, and how much of it is held.
_HEAD = 512
_BLOCK = 1 << 16
_MOST_BLOCKS = 16
_NORESERVE = getattr(mmap, "MAP_NORESERVE", 0x4000)
_LEAST_ROOM = 1 << 20


class Unreadable(Exception):
    """Why a file, or a part of it, can't be read."""

    def __init__(self, reason: str) -> None:
        super().__init__(reason)
        self.reason = reason


def reason_of(fault: OSError) -> str:
    return fault.strerror.lower() if fault.strerror else str(fault)


class Source:
    """The bytes of a file, or of a member of an archive, read from an open file."""

    def __init__(self, handle: int, start: int, size: int) -> None:
        self.handle = handle
        self.start = start
        self._size = size
        self._head: Optional[bytes] = None
        self._blocks: dict[int, bytes] = {}

    def __len__(self) -> int:
        return self._size

    def __getitem__(self, place: slice) -> bytes:
        """A slice of the bytes, shorter where the file has become shorter."""
        start, end, _ = place.indices(self._size)
        if start < end <= _HEAD:
            # Of most files no more is asked for: they are no ELF files.
            if self._head is None:
                self._head = self._read(0, min(_HEAD, self._size))
            return self._head[start:end]
        number = start // _BLOCK
        if end > (number + 1) * _BLOCK or end <= start:
            return self._read(start, end - start)
        within = start - number * _BLOCK
        return self._block(number)[within : within + end - start]

    def _block(self, number: int) -> bytes:
        if number not in self._blocks:
            if len(self._blocks) == _MOST_BLOCKS:
                del self._blocks[next(iter(self._blocks))]
            start = number * _BLOCK
            self._blocks[number] = self._read(start, min(_BLOCK, self._size - start))
        return self._blocks[number]

    def _read(self, start: int, count: int) -> bytes:
        try:
            return os.pread(self.handle, max(count, 0), self.start + start)
        except OSError as fault:
            raise Unreadable(reason_of(fault)) from None

    def read_into(self, room: memoryview, at: int) -> None:
        """Fills the buffer with the bytes from an offset on."""
        done = 0
        while done < len(room):
            try:
                count = os.preadv(self.handle, [room[done:]], self.start + at + done)
            except OSError as fault:
                raise Unreadable(reason_of(fault)) from None
            if not count:
                raise Unreadable("it became shorter while it was read")
            done += count


@contextmanager
def opened(path: bytes) -> Iterator[Source]:
    """The bytes of a regular file. A FIFO or a device is not waited for, nor read."""
    try:
        handle = os.open(path, os.O_RDONLY | os.O_NONBLOCK | os.O_NOCTTY | os.O_CLOEXEC)
    except OSError as fault:
        raise Unreadable(reason_of(fault)) from None
    try:
        found = os.fstat(handle)
        if not stat.S_ISREG(found.st_mode):
            raise Unreadable("it is no regular file")
        yield Source(handle, 0, found.st_size)
    finally:
        os.close(handle)


def standard_input() -> Source:
    """What standard input has: a file as it is, anything else once it is read into memory."""
    try:
        found = os.fstat(0)
    except OSError:
        raise Unreadable("standard input is closed") from None
    if stat.S_ISREG(found.st_mode):
        start = os.lseek(0, 0, os.SEEK_CUR)
        return Source(0, start, max(found.st_size - start, 0))
    return whole(0)


def whole(reader: int) -> Source:
    """All that can be read from an open file, in memory."""
    handle = os.memfd_create("what was read")
    try:
        size = _copied(lambda most: os.read(reader, most), handle)
    except OSError as fault:
        raise Unreadable(reason_of(fault)) from None
    return Source(handle, 0, size)


def _copied(read: Callable[[int], bytes], handle: int, size: int = 0) -> int:
    """Writes what is read behind so many bytes of a file, up to the longest one: its length."""
    while size < LONGEST:
        content = read(min(1 << 20, LONGEST - size))
        if not content:
            break
        size += os.pwrite(handle, content, size)
    return size


class Room:
    """Memory as long as a file, of which only what is written takes pages.

    All bytes from FRONT on are zeros when the next file comes into it.
    """

    FRONT = 1 << 16

    def __init__(self) -> None:
        self._memory: Optional[mmap.mmap] = None
        self._used = 0
        self.view = memoryview(b"")
        self.address = 0

    def take(self, size: int) -> None:
        """Makes room for a file of this size."""
        if not self._memory or size > len(self._memory):
            self._drop()
            self._grow(max(size, _LEAST_ROOM))
        elif self._used > self.FRONT:
            self._memory.madvise(mmap.MADV_DONTNEED, 0, self._used)
        self._used = size

    def _drop(self) -> None:
        self.view.release()
        if self._memory:
            self._memory.close()
            self._memory = None

    def _grow(self, size: int) -> None:
        length = 1 << (size - 1).bit_length() if size < 2**30 else size
        flags = mmap.MAP_PRIVATE | mmap.MAP_ANONYMOUS | _NORESERVE
        try:
            self._memory = mmap.mmap(-1, length, flags=flags)
        except OSError:
            raise Unreadable("there is no memory for a file of this length") from None
        self.view = memoryview(self._memory)
        self.address = _library.address_of(self.view)
