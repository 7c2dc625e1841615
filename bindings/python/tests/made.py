"""Files that the tests make by hand: relocatable files, and archives of them.

Their fields are those of the gABI, and of the layouts of archives (GNU, thin, BSD).
"""

import os
import signal
import struct
import tempfile
import unittest
from pathlib import Path

import elfmap

PACKAGE = Path(__file__).resolve().parents[1]
ENVIRONMENT = {
    **os.environ,
    "PYTHONPATH": os.pathsep.join([str(PACKAGE), os.environ.get("PYTHONPATH", "")]),
}


class Made:
    """A relocatable file: its sections, and at its end their names and headers.

    A section is a name, a type, a content, and fields by their names. The byte order is
    that of the module struct.
    """

    FIELDS = dict(
        name=0, type=4, flags=8, addr=16, offset=24, size=32, link=40, info=44, align=48, entsize=56
    )

    def __init__(self, *sections, order="<"):
        # Where the content of each section begins, by its index.
        self.order = order
        self.starts = [0]
        names = b"\0"
        self.data = bytearray(64)
        rows = [bytes(64)]
        for name, kind, content, fields in sections:
            self.data += bytes(-len(self.data) % 8)
            self.starts.append(len(self.data))
            rows.append(self.row(len(names), kind, len(self.data), len(content), fields))
            self.data += content
            names += name + b"\0"
        own = len(names)
        names += b".shstrtab\0"
        rows.append(self.row(own, 3, len(self.data), len(names), {}))
        self.names = len(self.data)
        self.data += names
        self.data += bytes(-len(self.data) % 8)
        self.table = len(self.data)
        self.data += b"".join(rows)
        counts = 64, 0, 0, 64, len(rows), len(rows) - 1
        ident = b"\x7fELF\2\1\1" if order == "<" else b"\x7fELF\2\2\1"
        header = ident, 1, 62, 1, 0, 0, self.table, 0, *counts
        self.data[:64] = struct.pack(f"{order}16sHHIQQQIHHHHHH", *header)

    def row(self, name, kind, offset, size, fields):
        it = dict(flags=0, addr=0, size=size, link=0, info=0, align=1, entsize=0) | fields
        places = it["addr"], offset, it["size"], it["link"], it["info"], it["align"], it["entsize"]
        return struct.pack(f"{self.order}IIQQQQIIQQ", name, kind, it["flags"], *places)

    def at(self, index, field):
        """Where a field of a section header is."""
        return self.table + 64 * index + self.FIELDS[field]

    def with_field(self, index, field, value):
        """Its bytes, with a field of a section header changed."""
        data = bytearray(self.data)
        at = self.at(index, field)
        width = 4 if field in ("name", "type", "link", "info") else 8
        data[at : at + width] = value.to_bytes(width, "little" if self.order == "<" else "big")
        return bytes(data)

    def with_bytes(self, at, content):
        data = bytearray(self.data)
        data[at : at + len(content)] = content
        return bytes(data)


def text(name=b".text", content=b"\x90" * 0x33):
    return name, 1, content, {}


def symbols(link, *rows, info=1, order="<"):
    """A symbol table: of each symbol its st_name, st_info and st_shndx, and its st_value if that is
    not 0."""
    entries = ((name, kind, 0, section, *(value or [0]), 0) for name, kind, section, *value in rows)
    content = bytes(24) + b"".join(struct.pack(f"{order}IBBHQQ", *it) for it in entries)
    return b".symtab", 2, content, dict(link=link, info=info, entsize=24)


def relocations(link, *named):
    content = b"".join(struct.pack("<QQq", 0, symbol << 32 | 2, 0) for symbol in named)
    return b".rela.text", 4, content, dict(link=link, info=1, entsize=24)


GOOD = bytes(Made(text()).data)
# .text has the bytes from 0x40 to below 0x73, and .data four bytes from 0x72 on.
SHARING = Made(text(), (b".data", 1, b"\1\2\3\4", {})).with_field(2, "offset", 0x72)
# The names of symbols: that at 1 is f.
NAMES = (b".strtab", 3, b"\0f\0", {})
# Symbol 1 is of section 99, which isn't there (rule 51), and two sections link to the table.
_LINKED = (relocations(2, 1), relocations(2, 1))
BROKEN_SYMBOLS = bytes(Made(text(), symbols(3, (1, 0x10, 99)), NAMES, *_LINKED).data)
# Symbols in section 302, after 300 sections without bytes, of which symbol 1 is of none that is
# there.
_MANY = [(b".filler", 1, b"", {})] * 300
MANY_BROKEN = Made(text(), *_MANY, symbols(303, (1, 0x10, 999)), NAMES)
CLASS_32 = b"\x7fELF\1\1\1" + bytes(64)


def archive_member(name, content, ending=b"/"):
    header = b"%-16s%-12d%-6d%-6d%-8o%-10d`\n" % (name + ending, 0, 0, 0, 0o644, len(content))
    return header + content + b"\n" * (len(content) % 2)


LONG = b"a name of more than sixteen letters.o"
GNU = (
    b"!<arch>\n"
    + archive_member(b"", bytes(4))
    + archive_member(b"/", LONG + b"/\n")
    + archive_member(b"good.o", GOOD)
    + archive_member(b"/0", SHARING, b"")
    + archive_member(b"odd", b"no ELF file")
)
BSD = (
    b"!<arch>\n"
    + archive_member(b"__.SYMDEF SORTED", bytes(8), b"")
    + archive_member(b"#1/40", LONG.ljust(40, b"\0") + SHARING, b"")
    + archive_member(b"good.o", GOOD, b"")
)


def thin(*names):
    table = b"".join(it + b"/\n" for it in names)
    starts = [table.index(it + b"/\n") for it in names]
    # The size is that of the file, whose bytes are elsewhere.
    headers = (archive_member(b"/%d" % it, b"", b"") for it in starts)
    return b"!<thin>\n" + archive_member(b"/", table) + b"".join(headers)


def setUpModule():
    # The tests change the folder, and the library may be named by a path from here.
    elfmap.check(GOOD)
    if "ELFMAP_LIB_DIR" in ENVIRONMENT:
        ENVIRONMENT["ELFMAP_LIB_DIR"] = os.path.abspath(ENVIRONMENT["ELFMAP_LIB_DIR"])


class FolderCase(unittest.TestCase):
    """A test in an empty folder of its own."""

    def setUp(self):
        folder = tempfile.TemporaryDirectory(prefix="elfmap-test-")
        self.addCleanup(folder.cleanup)
        before = os.getcwd()
        os.chdir(folder.name)
        self.addCleanup(os.chdir, before)

    def put(self, **files):
        """Files in the folder, whose names have a dot where the words have `__`."""
        for name, content in files.items():
            path = Path(name.replace("__", "."))
            path.parent.mkdir(parents=True, exist_ok=True)
            path.write_bytes(content)


def with_signals():
    """Of a command that a test starts and ends by a signal: who runs the tests may ignore it."""
    for it in (signal.SIGINT, signal.SIGTERM, signal.SIGHUP):
        signal.signal(it, signal.SIG_DFL)
