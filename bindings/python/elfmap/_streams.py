"""Bytes that are read once, from the first to the last: of a file, or of what is compressed in it.

What is compressed by gzip, bzip2, xz and lzma is read by the modules of Python, all else by its
command. No more memory is taken than the format asks for, and how many bytes come out has a bound.
"""

from __future__ import annotations

import importlib
import io
import os
import struct
from collections.abc import Callable, Iterator
from contextlib import contextmanager, suppress
from functools import partial
from typing import IO, TYPE_CHECKING, Any, Optional

from elfmap._sources import Source, Unreadable, reason_of

if TYPE_CHECKING:
    import subprocess

_PIECE = 1 << 20
# What follows a stream is copied for the next one.
_SMALL_PIECE = 1 << 16
# So much memory a file of xz may ask for: twice what `xz -9` does.
_MOST_OF_XZ = 1 << 27
# How files begin that are compressed, and by what.
COMPRESSED = {
    b"\x1f\x8b\x08": "gzip",
    b"\xfd7zXZ\0": "xz",
    b"BZh": "bzip2",
    b"\x28\xb5\x2f\xfd": "zstd",
    b"LZIP\1": "lzip",
    b"\x04\x22\x4d\x18": "lz4",
    b"\x02\x21\x4c\x18": "lz4",
    b"\x89LZO\0\r\n\x1a\n": "lzop",
    # The third byte has the length of the longest code, 9 to 16 bits.
    **{bytes((0x1F, 0x9D, 0x80 | bits)): "compress" for bits in range(9, 17)},
}
# The first of a block of bzip2: three letters alone may begin a text.
_BZIP2_BLOCKS = (b"1AY&SY", b"\x17rE8P\x90")
# The header of a file of lzma: its properties, here as xz sets them by itself, how much memory it
# asks for, and its length, or all ones. What is compressed begins by a zero byte.
_LZMA = struct.Struct("<BIQB")
_LZMA_PROPERTIES = 0x5D
_LONGEST_OF_LZMA = 1 << 40
# Of a file of lzip the byte 5 has the size of its dictionary, a power of two in its lower bits.
_MOST_OF_LZIP = 27
# What decompresses standard input to standard output, and tests that nothing follows.
_COMMANDS = {
    "zstd": ("zstd", "-dcq"),
    "lzip": ("lzip", "-dca"),
    "lz4": ("lz4", "-dc"),
    "lzop": ("lzop", "-dc"),
    "compress": ("gzip", "-dcq"),
}
# To start a command takes as long as to decompress so many bytes.
_BYTES_OF_A_START = 1 << 20


class Budget:
    """How many bytes may come out of what is compressed in one file, with all that is in it."""

    def __init__(self, most: int) -> None:
        self._most = most
        self._left = most

    def take(self, count: int) -> None:
        self._left -= count
        if self._left < 0:
            raise Unreadable(
                f"it is decompressed to more than {self._most >> 20} MiB;"
                " --unpack-limit allows more"
            )


class Stream:
    """Bytes, of which the next ones can be seen before they are read. `count` is how many are read
    or passed."""

    def __init__(self, read: Callable[[int], bytes]) -> None:
        self._own_read = read
        self._front = b""
        self.count = 0

    def peek(self, size: int) -> bytes:
        """The next bytes, so many or as many as there are; they are not passed."""
        while len(self._front) < size:
            more = self._own_read(size - len(self._front))
            if not more:
                break
            self._front += more
        return self._front[:size]

    def read(self, size: int) -> bytes:
        """Some of the next bytes, at most so many; none at the end."""
        if self._front:
            found = self._front[:size]
            self._front = self._front[size:]
        else:
            found = self._own_read(size)
        self.count += len(found)
        return found

    def exactly(self, size: int) -> bytes:
        """So many of the next bytes. Raises Unreadable where there are fewer."""
        pieces = []
        while size:
            pieces.append(self.read(min(size, _PIECE)))
            if not pieces[-1]:
                raise Unreadable("it ends within a member")
            size -= len(pieces[-1])
        return b"".join(pieces)

    def pass_zeros(self, step: int, most: int) -> bool:
        """Passes zeros, so many at once, but no more than `most` of them: whether none is left."""
        end = self.count + most
        while self.count <= end:
            piece = self.peek(_PIECE)
            zeros = len(piece) - len(piece.lstrip(b"\0"))
            if zeros < len(piece) or not piece:
                self.skip(zeros - zeros % step if zeros < len(piece) else zeros)
                return True
            self.skip(zeros)
        return False

    def skip(self, size: int) -> None:
        """Passes so many bytes. Raises Unreadable where there are fewer."""
        while size:
            passed = len(self.read(min(size, _PIECE)))
            if not passed:
                raise Unreadable("it ends within a member")
            size -= passed


class _Region(io.RawIOBase):
    """The bytes of a source, as a file that is read once."""

    def __init__(self, source: Source) -> None:
        self._source = source
        self._at = 0

    def readable(self) -> bool:
        return True

    def readinto(self, room: Any) -> int:
        with memoryview(room).cast("B") as view:
            size = min(len(view), len(self._source) - self._at)
            self._source.read_into(view[:size], self._at)
        self._at += size
        return size


def plain(source: Source) -> Stream:
    """The bytes of a source as they are."""
    return Stream(io.BufferedReader(_Region(source)).read)


def compression(head: bytes) -> Optional[str]:
    """By what a file is compressed that begins so; None where by nothing that is known here."""
    found = next((it for magic, it in COMPRESSED.items() if head.startswith(magic)), None)
    if found == "bzip2" and head[4:10] not in _BZIP2_BLOCKS:
        return None
    return "lzma" if not found and _is_lzma(head) else found


def _is_lzma(head: bytes) -> bool:
    """Whether a file begins as those of `xz --format=lzma` do, which have no magic number: by its
    header, and if its first bytes can be decompressed."""
    if len(head) < _LZMA.size:
        return False
    properties, memory, length, first = _LZMA.unpack_from(head)
    has_length = length == (1 << 64) - 1 or length < _LONGEST_OF_LZMA
    if (properties, first) != (_LZMA_PROPERTIES, 0) or not _is_dictionary(memory):
        return False
    return has_length and _has_start_of_lzma(head)


def _has_start_of_lzma(head: bytes) -> bool:
    """Whether what begins there can be decompressed, as far as it is there."""
    try:
        module = _module("lzma")
    except Unreadable:
        return True
    decoder = module.LZMADecompressor(module.FORMAT_ALONE, _MOST_OF_XZ)
    try:
        return bool(decoder.decompress(head, _SMALL_PIECE)) or decoder.eof
    except module.LZMAError:
        return False


def _is_dictionary(size: int) -> bool:
    """Whether a dictionary may have this size: a power of two, or that and its half."""
    lowest = size & -size
    return size >= 1 << 12 and size in (lowest, 3 * lowest)


@contextmanager
def decompressed(raw: Stream, kind: str, budget: Budget) -> Iterator[Stream]:
    """What is compressed by this in a stream."""
    if kind in _COMMANDS:
        budget.take(_BYTES_OF_A_START)
    with _decoder(raw, kind) as (read, broken):
        faults: tuple[type[Exception], ...] = (OSError, EOFError, *broken)

        def counted(size: int) -> bytes:
            try:
                found = read(min(size, _PIECE))
            except faults as fault:
                reason = reason_of(fault) if isinstance(fault, OSError) else str(fault)
                raise Unreadable(f"it can't be decompressed: {reason.lower()}") from None
            budget.take(len(found))
            return found

        yield Stream(counted)


Decoder = tuple[Callable[[int], bytes], tuple[type[Exception], ...]]


@contextmanager
def _decoder(raw: Stream, kind: str) -> Iterator[Decoder]:
    """What reads the decompressed bytes, and what it raises where they are broken."""
    if kind in _COMMANDS:
        dictionary = raw.peek(6)[5:] if kind == "lzip" else b""
        if any(it & 0x1F > _MOST_OF_LZIP for it in dictionary):
            raise Unreadable("it can't be decompressed: it asks for more than 128 MiB")
        with _piped(raw, *_COMMANDS[kind]) as read:
            yield read, ()
    elif kind == "gzip":
        module = _module("gzip")
        with module.open(_File(raw), "rb") as it:
            yield it.read, (_module("zlib").error,)
    elif kind == "bzip2":
        module = _module("bz2")
        yield _Joined(raw, module.BZ2Decompressor).read, (ValueError,)
    else:
        module = _module("lzma")
        yield _Joined(raw, partial(_lzma_decoder, module, kind)).read, (module.LZMAError,)


def _lzma_decoder(module: Any, kind: str) -> Any:
    own = module.FORMAT_XZ if kind == "xz" else module.FORMAT_ALONE
    return module.LZMADecompressor(own, _MOST_OF_XZ)


def _module(name: str) -> Any:
    """A module of Python that most runs do not need, and that not every Python has."""
    try:
        return importlib.import_module(name)
    except ImportError:
        raise Unreadable(f"it can't be decompressed: this Python has no module {name}") from None


class _File(io.RawIOBase):
    """A stream as a file, for the modules of Python."""

    def __init__(self, stream: Stream) -> None:
        self._stream = stream

    def readable(self) -> bool:
        return True

    def readinto(self, room: Any) -> int:
        with memoryview(room).cast("B") as view:
            found = self._stream.read(len(view))
            view[: len(found)] = found
        return len(found)


class _Joined:
    """Reads streams that are compressed, one after the other, with zeros between them."""

    def __init__(self, raw: Stream, new: Callable[[], Any]) -> None:
        self._raw = raw
        self._new = new
        self._given = b""
        self._ready = b""
        self._decoder = new()

    def read(self, size: int) -> bytes:
        # So much is read ahead that the sum of a small stream is tested with its first bytes.
        if not self._ready:
            self._ready = self._next()
        found = self._ready[:size]
        self._ready = self._ready[size:]
        return found

    def _next(self) -> bytes:
        while not self._decoder.eof or self._has_more():
            if self._decoder.needs_input and not self._given:
                self._given = self._raw.read(_SMALL_PIECE)
                if not self._given:
                    raise EOFError("it ends before what is compressed in it")
            found: bytes = self._decoder.decompress(self._given, _SMALL_PIECE)
            self._given = b""
            if found:
                return found
        return b""

    def _has_more(self) -> bool:
        rest = self._decoder.unused_data.lstrip(b"\0")
        while not rest:
            piece = self._raw.read(_SMALL_PIECE)
            if not piece:
                return False
            rest = piece.lstrip(b"\0")
        self._decoder = self._new()
        self._given = rest
        return True


@contextmanager
def _piped(raw: Stream, name: str, options: str) -> Iterator[Callable[[int], bytes]]:
    """What a command writes, which reads the stream meanwhile."""
    # Who reads a file that no command decompresses starts without these modules.
    import shutil
    import subprocess
    import threading

    command = shutil.which(name)
    if not command:
        raise Unreadable(f"it can't be decompressed: there is no command {name} (package {name})")
    with open(os.memfd_create("what the command says"), "rb") as said:
        process = subprocess.Popen(
            [command, options], stdin=subprocess.PIPE, stdout=subprocess.PIPE, stderr=said
        )
        assert process.stdin and process.stdout
        faults: list[Exception] = []
        feeder = threading.Thread(target=_feed, args=(raw, process.stdin, faults), daemon=True)
        feeder.start()
        try:
            yield _Piped(name, process, faults, said).read
        finally:
            process.kill()
            feeder.join()
            process.stdout.close()
            process.wait()


def _feed(raw: Stream, end: IO[bytes], faults: list[Exception]) -> None:
    try:
        with suppress(BrokenPipeError), end:
            while piece := raw.read(_PIECE):
                end.write(piece)
    except Exception as fault:
        faults.append(fault)


class _Piped:
    """Reads what a command writes, and at its end whether it is all."""

    def __init__(
        self, name: str, process: subprocess.Popen[bytes], faults: list[Exception], said: IO[bytes]
    ) -> None:
        self._name = name
        self._process = process
        self._faults = faults
        self._said = said

    def read(self, size: int) -> bytes:
        assert self._process.stdout
        found = self._process.stdout.read(size)
        if not found and self._process.wait():
            words = os.pread(self._said.fileno(), 1 << 12, 0).decode("utf-8", "replace")
            lines = words.strip().splitlines()
            raise EOFError(lines[-1] if lines else f"{self._name} failed")
        if not found and self._faults:
            raise self._faults[0]
        return found
