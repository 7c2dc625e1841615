"""The calls of include/elfmap.h, by ctypes."""

import ctypes
import functools
import os
import struct
from collections.abc import Iterator, Sequence
from ctypes import POINTER, Structure, c_void_p
from typing import Optional

from elfmap import _declared

NAME = "libelfmap.so"
_SHARED = "libelfmap.so.0"
_PACKAGE = os.path.dirname(os.path.realpath(__file__))
_RELEASE = os.path.join(_PACKAGE, "../../../lib")


def ready() -> Optional[str]:
    """The path of the shared library that is built: in the folder that ELFMAP_LIB_DIR names, or
    else in the package or the release."""
    named = os.environ.get("ELFMAP_LIB_DIR")
    folders = [os.path.abspath(named)] if named else [_PACKAGE, os.path.normpath(_RELEASE)]
    paths = (os.path.join(folder, name) for folder in folders for name in (NAME, _SHARED))
    return next((path for path in paths if os.path.isfile(path)), None)


def shared_library(path: str) -> ctypes.PyDLL:
    """The library, with the types of its calls.

    A PyDLL keeps the interpreter's lock, so that no thread writes the bytes meanwhile.
    """
    library = ctypes.PyDLL(path)
    for name, (result, *parameters) in _declared.CALLS.items():
        call = getattr(library, name)
        call.restype = result
        call.argtypes = parameters
    return library


@functools.cache
def library() -> ctypes.PyDLL:
    """Finds the shared library, or builds it, in the cache if that can be written."""
    found = ready()
    if found:
        return shared_library(found)
    # Not imported with the package, so that it can be run by its name.
    import tempfile
    from pathlib import Path

    from elfmap import build

    path = build.cached()
    if path and path.is_file():
        return shared_library(str(path))
    if path and build.is_writable(path.parent):
        return shared_library(str(build.build(path)))
    # A library that is loaded needs its file no more.
    with tempfile.TemporaryDirectory(prefix="elfmap-") as room:
        return shared_library(str(build.build(Path(room) / NAME)))


class Buffer(Structure):
    """The Py_buffer of Python's C API."""

    _fields_ = [
        ("buf", c_void_p),
        ("obj", ctypes.py_object),
        ("len", ctypes.c_ssize_t),
        ("itemsize", ctypes.c_ssize_t),
        ("readonly", ctypes.c_int),
        ("ndim", ctypes.c_int),
        ("format", ctypes.c_char_p),
        ("shape", c_void_p),
        ("strides", c_void_p),
        ("suboffsets", c_void_p),
        ("internal", c_void_p),
    ]


get_buffer = ctypes.pythonapi.PyObject_GetBuffer
get_buffer.argtypes = [ctypes.py_object, POINTER(Buffer), ctypes.c_int]
get_buffer.restype = ctypes.c_int
release_buffer = ctypes.pythonapi.PyBuffer_Release
release_buffer.argtypes = [POINTER(Buffer)]
release_buffer.restype = None
# For what has no bytes, and no place.
nowhere = ctypes.create_string_buffer(1)


def address_of(view: memoryview) -> int:
    """Where the bytes of a view are, until the view is released.

    ctypes itself returns this only for bytes that can be written.
    """
    buffer = Buffer()
    get_buffer(view, buffer, 0)
    try:
        return buffer.buf or ctypes.addressof(nowhere)
    finally:
        release_buffer(buffer)


def files_of(contents: Sequence[memoryview]) -> ctypes.Array[_declared.Bytes]:
    """Where the bytes of each file of a link are, as long as its view is there."""
    found = (_declared.Bytes(address_of(it), len(it)) for it in contents)
    return (_declared.Bytes * len(contents))(*found)


def section_headers(file: _declared.File, address: int, size: int) -> Iterator[tuple[int, ...]]:
    """The section headers of a file, all read by one call: of each its fields."""
    rows = (_declared.Section * file.sections)()
    count = library().elfmap_sections(file, address, size, 0, rows, len(rows))
    # The struct has the fields where the file has them, in the order of the machine.
    return struct.iter_unpack("@2I4Q2I2Q", memoryview(rows)[:count])
