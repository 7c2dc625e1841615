"""The members of tar, cpio and RPM files, in their order, from a stream.

A tar file has blocks of 512 bytes. A member has a header of one block, and its content fills whole
blocks. A member of type `L`, or of `x` in the format of POSIX, has the long name of the next one.

A cpio file in the format `newc` has for each member `070701`, 13 numbers of 8 hexadecimal digits,
the name, and the content, each filled with zeros to a multiple of 4.

An RPM file has a lead of 96 bytes, two headers, and a cpio file that is compressed. A header has
its magic number, 4 bytes, how many entries of 16 bytes there are, and how many bytes follow them.
The first header is filled with zeros to a multiple of 8.
"""

from __future__ import annotations

import struct
from collections.abc import Iterator
from typing import NamedTuple, Optional

from elfmap._sources import Unreadable
from elfmap._streams import Stream

BLOCK = 512
# So many bytes of a name are read, and so many of the words of POSIX that have one.
_LONGEST_NAME = 1 << 16
_MOST_WORDS = 1 << 20
# So many zeros may follow a tar or cpio file, before another one.
_MOST_ZEROS = 1 << 24
_TAR_MAGIC = b"ustar"
_CPIO_MAGICS = (b"070701", b"070702")
_CPIO_HEADER = 110
_CPIO_END = b"TRAILER!!!"
_RPM_MAGIC = b"\xed\xab\xee\xdb"
_RPM_HEADER = b"\x8e\xad\xe8\x01"
_RPM_LEAD = 96
_REGULAR = (b"0", b"\0", b"7")
_SPARSE = b"S"
# Links, devices, directories and FIFOs.
_WITHOUT_CONTENT = (b"1", b"2", b"3", b"4", b"5", b"6")
_STORED_SPARSE = "it is stored without its zeros, as a sparse file, which is not read"


class Entry(NamedTuple):
    """A member whose content comes next: a regular file. `reason` is why its bytes are not those of
    the file."""

    name: bytes
    size: int
    reason: str = ""


def is_tar(head: bytes) -> bool:
    """Whether a file that begins so is a tar file: it has the magic number, or the right sum."""
    return head[257:262] == _TAR_MAGIC or len(head) >= BLOCK and _has_sum(head[:BLOCK])


def is_cpio(head: bytes) -> bool:
    return head[:6] in _CPIO_MAGICS


def is_rpm(head: bytes) -> bool:
    return head[:4] == _RPM_MAGIC


# ---- tar


class _Tar:
    def __init__(self, stream: Stream) -> None:
        self._stream = stream
        # What the members of types `L` and `x` say of the next one.
        self._name: Optional[bytes] = None
        self._size: Optional[int] = None
        self._is_sparse = False

    def entries(self) -> Iterator[Entry]:
        """Its regular files. The caller reads some of the content; the rest is passed here."""
        while (header := self._header()) is not None:
            kind = header[156:157]
            size = self._number(header[124:136])
            if kind in (b"L", b"x", b"X"):
                self._note(kind, self._content(size, kind))
            elif kind in (b"K", b"g"):
                self._stream.skip(size + -size % BLOCK)
            else:
                yield from self._member(header, kind, size if self._size is None else self._size)
                self._name = self._size = None
                self._is_sparse = False

    def _member(self, header: bytes, kind: bytes, size: int) -> Iterator[Entry]:
        if kind == _SPARSE:
            self._is_sparse = True
            self._pass_map(header)
        if kind in _REGULAR or kind == _SPARSE:
            left = _Rest(self._stream, size)
            yield Entry(self._name_in(header), size, _STORED_SPARSE if self._is_sparse else "")
            left.passed()
            self._stream.skip(-size % BLOCK)
        elif kind not in _WITHOUT_CONTENT:
            self._stream.skip(size + -size % BLOCK)

    def _name_in(self, header: bytes) -> bytes:
        if self._name is not None:
            return self._name
        name = _text(header[:100])
        prefix = _text(header[345:500]) if header[257:263] == b"ustar\0" else b""
        return prefix + b"/" + name if prefix else name

    def _header(self) -> Optional[bytes]:
        """The next header; none at the end. After blocks of zeros another tar file may begin."""
        block = self._stream.peek(BLOCK)
        if not block.strip(b"\0"):
            block = self._after_zeros()
        if not block:
            return None
        if len(block) < BLOCK:
            raise self._damaged("it ends there")
        if not _has_sum(block):
            raise self._damaged("there is no member's header")
        self._stream.skip(BLOCK)
        return block

    def _after_zeros(self) -> bytes:
        """What follows blocks of zeros: a header, or nothing."""
        is_passed = self._stream.pass_zeros(BLOCK, _MOST_ZEROS)
        block = self._stream.peek(BLOCK)
        if not is_passed or block and not is_tar(block):
            raise Unreadable("the tar file is followed by something else, which is not read")
        return block

    def _damaged(self, why: str) -> Unreadable:
        return Unreadable(f"the tar file is damaged at offset {self._stream.count:#x}: {why}")

    def _number(self, field: bytes) -> int:
        """A number of octal digits, or one in binary whose first bit is set."""
        if field[:1] == b"\x80":
            return int.from_bytes(field[1:], "big")
        digits = field.strip(b" \0")
        if digits.strip(b"01234567"):
            raise self._damaged("the size before it is no number")
        return int(digits or b"0", 8)

    def _content(self, size: int, kind: bytes) -> bytes:
        if size > (_LONGEST_NAME if kind == b"L" else _MOST_WORDS):
            raise self._damaged("the name of the next member is too long")
        found = self._stream.exactly(size)
        self._stream.skip(-size % BLOCK)
        return found

    def _pass_map(self, header: bytes) -> None:
        """Passes the blocks that have more of where the content of a sparse file is."""
        has_more = header[482:483] != b"\0"
        while has_more:
            has_more = self._stream.exactly(BLOCK)[504:505] != b"\0"

    def _note(self, kind: bytes, content: bytes) -> None:
        if kind == b"L":
            self._name = _text(content)
            return
        for key, value in _posix_words(content):
            if key == b"path":
                self._name = value
            elif key == b"size" and value.isdigit():
                self._size = int(value[:20])
            elif key.startswith(b"GNU.sparse."):
                self._is_sparse = True
                self._name = value if key == b"GNU.sparse.name" else self._name


class _Rest:
    """What of a content the caller has not read."""

    def __init__(self, stream: Stream, size: int) -> None:
        self._stream = stream
        self._end = stream.count + size

    def passed(self) -> None:
        self._stream.skip(self._end - self._stream.count)


def _text(field: bytes) -> bytes:
    return field.partition(b"\0")[0]


def _has_sum(block: bytes) -> bool:
    """Whether a header has its sum, that of its bytes with spaces in place of the sum."""
    digits = block[148:156].strip(b" \0")
    if not digits or digits.strip(b"01234567"):
        return False
    signed = sum(struct.unpack("512b", block)) - sum(struct.unpack("8b", block[148:156])) + 256
    return int(digits, 8) in (sum(block) - sum(block[148:156]) + 256, signed)


def _posix_words(content: bytes) -> Iterator[tuple[bytes, bytes]]:
    """Records `LENGTH KEY=VALUE`, each with a line feed at its end."""
    at = 0
    while at < len(content):
        length, _, _ = content[at : at + 20].partition(b" ")
        if not length.isdigit() or int(length) <= len(length):
            return
        record = content[at + len(length) + 1 : at + int(length) - 1]
        key, _, value = record.partition(b"=")
        yield key, value
        at += int(length)


# ---- cpio


class _Cpio:
    def __init__(self, stream: Stream) -> None:
        self._stream = stream

    def entries(self) -> Iterator[Entry]:
        while True:
            numbers = self._header()
            mode = numbers[1]
            links = numbers[4]
            size = numbers[6]
            length = numbers[11]
            if length > _LONGEST_NAME:
                raise Unreadable("the cpio file has a name that is too long")
            name = self._stream.exactly(length).partition(b"\0")[0]
            self._stream.skip(-(_CPIO_HEADER + length) % 4)
            if name == _CPIO_END:
                if self._is_at_end():
                    return
                continue
            left = _Rest(self._stream, size)
            # Of hard links the last one alone has the content.
            if mode & 0o170000 == 0o100000 and (size or links == 1):
                yield Entry(name, size)
            left.passed()
            self._stream.skip(-size % 4)

    def _is_at_end(self) -> bool:
        """Whether nothing follows but zeros. Another cpio file may."""
        is_passed = self._stream.pass_zeros(1, _MOST_ZEROS)
        head = self._stream.peek(6)
        if not is_passed or head and not is_cpio(head):
            raise Unreadable("the cpio file is followed by something else, which is not read")
        return not head

    def _header(self) -> list[int]:
        header = self._stream.exactly(_CPIO_HEADER)
        digits = header[6:]
        if header[:6] not in _CPIO_MAGICS or digits.strip(b"0123456789abcdefABCDEF"):
            raise Unreadable("the cpio file is damaged: there is no member's header")
        return [int(digits[at : at + 8], 16) for at in range(0, len(digits), 8)]


# ---- RPM


def pass_rpm_headers(stream: Stream) -> None:
    """Passes what an RPM file has before its content."""
    stream.skip(_RPM_LEAD)
    for multiple in (8, 1):
        head = stream.exactly(16)
        if head[:4] != _RPM_HEADER:
            raise Unreadable("the RPM file is damaged: it has no header there")
        entries, size = struct.unpack(">8x2I", head)
        size += 16 * entries
        stream.skip(size + -size % multiple)


def entries(stream: Stream) -> Optional[Iterator[Entry]]:
    """The members of what begins there, if it is a tar or a cpio file."""
    head = stream.peek(BLOCK)
    if is_cpio(head):
        return _Cpio(stream).entries()
    return _Tar(stream).entries() if is_tar(head) else None
