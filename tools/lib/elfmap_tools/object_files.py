"""The objects in files and archives, as the Python package reads these."""

import os

from elfmap._archives import members
from elfmap._sources import Unreadable, opened

from .machine_files import ELF_64

# A file, and where the object begins in it and how long it is.
Place = tuple[str, int, int]


def objects_of(path: str) -> list[Place]:
    """The objects in a file: it, or the members of an archive; none where it can't be read."""
    try:
        with opened(os.fsencode(path)) as source:
            if not path.endswith(".a"):
                is_object = source[:5] == ELF_64 and source[16:18] in (b"\1\0", b"\0\1")
                return [(path, 0, len(source))] if is_object else []
            found: list[Place] = []
            for it in members(source, b""):
                if source[it.start : it.start + 5] == ELF_64:
                    found.append((path, it.start, it.size))
            return found
    except Unreadable:
        return []


def content_of(place: Place) -> bytes:
    """The bytes of an object."""
    path, start, size = place
    with open(path, "rb") as it:
        it.seek(start)
        return it.read(size)
